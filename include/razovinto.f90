! Razovinto for hosts written in Fortran: checked arithmetic on numbers of 64 bits, recipes, rows of operations, fields,
! blocks and levels of raw floats.
!
! Every function takes any input and asks nothing of it: where something is wrong, it gives a refusal's number, and 0
! otherwise. A lent list is an array and a count of elements. Nothing is kept from one call to the next, and several
! threads may call, each with lists of its own. docs/LINKING.md says what the host must keep.
!
! The names are those of include/razovinto.h, but Fortran takes large letters for small ones, and has one meaning for a
! name. So the kinds begin with razovinto_kind_; the refusal of an overflowed value is razovinto_overflowed_operand;
! and an answer of several numbers has the name of the function that writes it: razovinto_scan writes a
! type(razovinto_scan_answer), which has razovinto_scan_length numbers.
!
! The numbers go from 0 to 2**64 - 1, and Fortran has no unsigned integers: integer(c_int64_t) carries the 64 binary
! digits. Up to 2**63 - 1 the two readings agree; a number n from 2**63 on is seen as n - 2**64, so that -1_c_int64_t is
! 2**64 - 1. An integer that is below 0 for Fortran is therefore a large number here, and never a negative one; only
! razovinto_signed_quotient and razovinto_signed_remainder take it as Fortran does. A byte from 128 on is below 0 too,
! and so is a block's number from 2**31 on where razovinto_write takes it: there -1_c_int32_t is 2**32 - 1.
module razovinto
    use, intrinsic :: iso_c_binding, only: c_float, c_int8_t, c_int32_t, c_int64_t, c_size_t
    implicit none
    private
    public :: razovinto_sum, razovinto_product, razovinto_quotient, razovinto_remainder, razovinto_power, &
        razovinto_logarithm, razovinto_number, razovinto_overflowed, razovinto_power_fits, razovinto_signed_quotient, &
        razovinto_signed_remainder, razovinto_run, razovinto_shape, razovinto_row, razovinto_row_of_records, &
        razovinto_scan, razovinto_sound, razovinto_read, razovinto_write, razovinto_written_size, razovinto_search, &
        razovinto_level_scan, razovinto_level_to_field, razovinto_refusal_text

    character(len=*), parameter, public :: &
        razovinto_version = '4.5.0'
    integer, parameter, public :: &
        razovinto_version_major = 4
    integer, parameter, public :: &
        razovinto_version_minor = 5
    integer, parameter, public :: &
        razovinto_version_patch = 0

    ! The refusals. Not every one has a function here that gives it yet.
    integer(c_int32_t), parameter, public :: razovinto_divisor_zero = 1
    integer(c_int32_t), parameter, public :: razovinto_base_below_two = 2
    integer(c_int32_t), parameter, public :: razovinto_overflowed_operand = 3
    integer(c_int32_t), parameter, public :: razovinto_quotient_too_large = 4
    integer(c_int32_t), parameter, public :: razovinto_unknown_width = 5
    integer(c_int32_t), parameter, public :: razovinto_lengths_differ = 6
    integer(c_int32_t), parameter, public :: razovinto_item_count = 7
    integer(c_int32_t), parameter, public :: razovinto_unknown_kind = 8
    integer(c_int32_t), parameter, public :: razovinto_literal_too_large = 9
    integer(c_int32_t), parameter, public :: razovinto_too_few_on_hand = 10
    integer(c_int32_t), parameter, public :: razovinto_hand_full = 11
    integer(c_int32_t), parameter, public :: razovinto_several_left = 12
    integer(c_int32_t), parameter, public :: razovinto_none_left = 13
    integer(c_int32_t), parameter, public :: razovinto_field_empty = 14
    integer(c_int32_t), parameter, public :: razovinto_bad_mark = 15
    integer(c_int32_t), parameter, public :: razovinto_block_length = 16
    integer(c_int32_t), parameter, public :: razovinto_wrong_check = 17
    integer(c_int32_t), parameter, public :: razovinto_bad_layout = 18
    integer(c_int32_t), parameter, public :: razovinto_list_too_short = 19
    integer(c_int32_t), parameter, public :: razovinto_allowance_spent = 20
    integer(c_int32_t), parameter, public :: razovinto_block_number_too_large = 21
    integer(c_int32_t), parameter, public :: razovinto_unusable_reading = 22
    integer(c_int32_t), parameter, public :: razovinto_not_whole = 23
    integer(c_int32_t), parameter, public :: razovinto_other_block_number = 24

    ! The name under which the six operations gave 19 before there were other lists.
    integer(c_int32_t), parameter, public :: razovinto_result_too_short = razovinto_list_too_short

    ! How many bytes each of the six operations writes.
    integer(c_size_t), parameter, public :: razovinto_result_size = 16

    ! The kinds of a recipe's items, and from razovinto_kind_sum on of a row's operations.
    integer(c_int8_t), parameter, public :: razovinto_kind_literal = 0
    integer(c_int8_t), parameter, public :: razovinto_kind_sum = 1
    integer(c_int8_t), parameter, public :: razovinto_kind_product = 2
    integer(c_int8_t), parameter, public :: razovinto_kind_quotient = 3
    integer(c_int8_t), parameter, public :: razovinto_kind_remainder = 4
    integer(c_int8_t), parameter, public :: razovinto_kind_power = 5
    integer(c_int8_t), parameter, public :: razovinto_kind_logarithm = 6

    ! The phases of a run.
    integer(c_int64_t), parameter, public :: razovinto_between_items = 0
    integer(c_int64_t), parameter, public :: razovinto_within_power = 1
    integer(c_int64_t), parameter, public :: razovinto_within_logarithm = 2

    ! How many values may be on hand; how many operations a row may have; a block's bytes, and how many values it may
    ! have.
    integer, parameter, public :: razovinto_places = 32
    integer(c_size_t), parameter, public :: razovinto_row_most = 4096
    integer(c_size_t), parameter, public :: razovinto_block_size = 512
    integer(c_size_t), parameter, public :: razovinto_block_values = 55

    ! How many numbers each answer has.
    integer(c_size_t), parameter, public :: razovinto_shape_length = 2
    integer(c_size_t), parameter, public :: razovinto_run_length = 50
    integer(c_size_t), parameter, public :: razovinto_scan_length = 4
    integer(c_size_t), parameter, public :: razovinto_read_length = 3
    integer(c_size_t), parameter, public :: razovinto_write_length = 2
    integer(c_size_t), parameter, public :: razovinto_search_length = 4
    integer(c_size_t), parameter, public :: razovinto_level_scan_length = 1
    integer(c_size_t), parameter, public :: razovinto_level_to_field_length = 1

    ! How many floats a level's extent has: the least and the greatest reading.
    integer(c_size_t), parameter, public :: razovinto_extent_length = 2

    ! Whether a recipe is well formed: the refusal's place, which is the item's index from 0, or how many items there
    ! are for 12 and 13; and the largest number of the width.
    type, bind(c), public :: razovinto_shape_answer
        integer(c_int64_t) :: place, limit
    end type

    ! The numbers that a run holds within a power, and within a logarithm; 0 otherwise.
    type, bind(c), public :: razovinto_power_numbers
        integer(c_int64_t) :: first_overflowed, first, second_overflowed, second, exponent
    end type
    type, bind(c), public :: razovinto_logarithm_numbers
        integer(c_int64_t) :: base, left, count
    end type

    ! What a run shows. With 0 `number` is the recipe's value, or `overflowed` is 1. With razovinto_allowance_spent it
    ! is the state in which the run was stopped; with everything else `done`, `phase`, the phase's numbers and all
    ! places are 0. `place` is the refusal's, as of a shape, and `done` for 20; `steps` are those taken, `done` counts
    ! the items wholly done. The hand stands bottom first, its marks and its numbers; an unused place is 0 in both.
    type, bind(c), public :: razovinto_run_answer
        integer(c_int64_t) :: place, overflowed, number, steps, done, phase
        type(razovinto_power_numbers) :: power
        type(razovinto_logarithm_numbers) :: logarithm
        integer(c_int8_t) :: on_hand_overflowed(razovinto_places)
        integer(c_int64_t) :: on_hand(razovinto_places)
    end type

    ! A field's range: the refusal's place, which is the element's index from 0 for 15 and 3; and the packing width, the
    ! smallest w with greatest - least < 2**w, which is 0 for one number everywhere.
    type, bind(c), public :: razovinto_scan_answer
        integer(c_int64_t) :: place, least, greatest, width
    end type

    ! What a block's head says; the refusal's place is 0.
    type, bind(c), public :: razovinto_read_answer
        integer(c_int64_t) :: place, number, count
    end type

    ! What a field was written to: the refusal's place, which is the element's index from 0 for 15; and the length of
    ! the run that was written, in bytes.
    type, bind(c), public :: razovinto_write_answer
        integer(c_int64_t) :: place, length
    end type

    ! The first overflowed value of a run of blocks: the refusal's place, which is the bad block's position from 0;
    ! whether there is one, 1 or 0; its block's position, and its place within the block, both from 0.
    type, bind(c), public :: razovinto_search_answer
        integer(c_int64_t) :: place, found, position, within
    end type

    ! Where a level was refused, or couldn't be turned into a field: the reading's index from 0 for 15, 22 and 23.
    type, bind(c), public :: razovinto_level_scan_answer
        integer(c_int64_t) :: place
    end type
    type, bind(c), public :: razovinto_level_to_field_answer
        integer(c_int64_t) :: place
    end type

    ! An operation of a row as the host keeps it: its kind, and left and right; for a power base and exponent, for a
    ! logarithm base and argument. What stands in the seven bytes between `kind` and `left` isn't looked at.
    type, bind(c), public :: razovinto_operation
        integer(c_int8_t) :: kind
        integer(c_int64_t) :: left, right
    end type

    ! Single operations. With 0 each of the first six has written sixteen bytes to `bytes`:
    !
    !     bytes(1:8)     the number, its lowest byte first
    !     bytes(9)       the mark: 0, the number fits 64 bits; 1, it is overflowed, and bytes(1:8) are 0
    !     bytes(10:16)   0
    !
    ! Bytes after these stay as they are. With a refusal all bytes stay as they are. `length` is how many bytes `bytes`
    ! has; it is looked at first.
    interface
        ! left + right; overflowed from 2**64 on.
        function razovinto_sum(left, right, bytes, length) bind(c, name='razovinto_sum') result(refusal)
            import :: c_int8_t, c_int32_t, c_int64_t, c_size_t
            integer(c_int64_t), value :: left, right
            integer(c_int8_t), intent(inout) :: bytes(*)
            integer(c_size_t), value :: length
            integer(c_int32_t) :: refusal
        end function

        ! left * right; overflowed from 2**64 on.
        function razovinto_product(left, right, bytes, length) bind(c, name='razovinto_product') result(refusal)
            import :: c_int8_t, c_int32_t, c_int64_t, c_size_t
            integer(c_int64_t), value :: left, right
            integer(c_int8_t), intent(inout) :: bytes(*)
            integer(c_size_t), value :: length
            integer(c_int32_t) :: refusal
        end function

        ! The whole part of left / right; refused with razovinto_divisor_zero.
        function razovinto_quotient(left, right, bytes, length) bind(c, name='razovinto_quotient') result(refusal)
            import :: c_int8_t, c_int32_t, c_int64_t, c_size_t
            integer(c_int64_t), value :: left, right
            integer(c_int8_t), intent(inout) :: bytes(*)
            integer(c_size_t), value :: length
            integer(c_int32_t) :: refusal
        end function

        ! What left / right leaves; refused with razovinto_divisor_zero.
        function razovinto_remainder(left, right, bytes, length) bind(c, name='razovinto_remainder') result(refusal)
            import :: c_int8_t, c_int32_t, c_int64_t, c_size_t
            integer(c_int64_t), value :: left, right
            integer(c_int8_t), intent(inout) :: bytes(*)
            integer(c_size_t), value :: length
            integer(c_int32_t) :: refusal
        end function

        ! base ** exponent; overflowed from 2**64 on. Every base to the power of 0 gives 1, the base 0 too.
        function razovinto_power(base, exponent, bytes, length) bind(c, name='razovinto_power') result(refusal)
            import :: c_int8_t, c_int32_t, c_int64_t, c_size_t
            integer(c_int64_t), value :: base, exponent
            integer(c_int8_t), intent(inout) :: bytes(*)
            integer(c_size_t), value :: length
            integer(c_int32_t) :: refusal
        end function

        ! The largest e with base ** e at most argument, 0 for the argument 0; refused with razovinto_base_below_two.
        function razovinto_logarithm(base, argument, bytes, length) bind(c, name='razovinto_logarithm') result(refusal)
            import :: c_int8_t, c_int32_t, c_int64_t, c_size_t
            integer(c_int64_t), value :: base, argument
            integer(c_int8_t), intent(inout) :: bytes(*)
            integer(c_size_t), value :: length
            integer(c_int32_t) :: refusal
        end function

        ! 1 where base ** exponent is at most 2**64 - 1, 0 where it is above; it is not worked out.
        function razovinto_power_fits(base, exponent) bind(c, name='razovinto_power_fits') result(fits)
            import :: c_int32_t, c_int64_t
            integer(c_int64_t), value :: base, exponent
            integer(c_int32_t) :: fits
        end function

        ! The truncating quotient of signed numbers, written to number(1); refused with razovinto_list_too_short where
        ! `length` is 0, then with razovinto_divisor_zero, then, for the smallest number by -1, with
        ! razovinto_quotient_too_large. With a refusal nothing is written, and nothing ever is past number(1).
        function razovinto_signed_quotient(left, right, number, length) bind(c, name='razovinto_signed_quotient') &
            result(refusal)
            import :: c_int32_t, c_int64_t, c_size_t
            integer(c_int64_t), value :: left, right
            integer(c_int64_t), intent(inout) :: number(*)
            integer(c_size_t), value :: length
            integer(c_int32_t) :: refusal
        end function

        ! What it leaves: left - right * quotient, and 0 for the smallest number by -1; refused with
        ! razovinto_list_too_short, then with razovinto_divisor_zero.
        function razovinto_signed_remainder(left, right, number, length) bind(c, name='razovinto_signed_remainder') &
            result(refusal)
            import :: c_int32_t, c_int64_t, c_size_t
            integer(c_int64_t), value :: left, right
            integer(c_int64_t), intent(inout) :: number(*)
            integer(c_size_t), value :: length
            integer(c_int32_t) :: refusal
        end function
    end interface

    ! A row is up to 4,096 single operations in one call. What operation i comes to is element i of three lists, and
    ! equal to what its own function gives:
    !
    !     numbers(i)    the number
    !     marks(i)      the mark: 0, the number fits 64 bits; 1, it is overflowed, and numbers(i) is 0
    !     codes(i)      0
    !
    ! A refused operation has the number 0, the mark 0 and the refusal as its code: razovinto_unknown_kind for a kind
    ! that isn't from razovinto_kind_sum to razovinto_kind_logarithm, razovinto_divisor_zero or
    ! razovinto_base_below_two. The row goes on with the next. What the three lists have past the last operation stays.
    ! The row itself is refused for its counts alone, and then nothing is written.
    interface
        ! A row of plain lists: operation i has kinds(i), lefts(i) and rights(i). Refused with razovinto_lengths_differ
        ! where these three lists differ in length, then with razovinto_item_count for 0 operations or above
        ! razovinto_row_most, then with razovinto_list_too_short where one of the lists that are written has fewer
        ! elements than the row.
        function razovinto_row(kinds, kind_count, lefts, left_count, rights, right_count, numbers, number_count, &
            marks, mark_count, codes, code_count) bind(c, name='razovinto_row') result(refusal)
            import :: c_int8_t, c_int32_t, c_int64_t, c_size_t
            integer(c_int8_t), intent(in) :: kinds(*)
            integer(c_int64_t), intent(in) :: lefts(*), rights(*)
            integer(c_int64_t), intent(inout) :: numbers(*)
            integer(c_int8_t), intent(inout) :: marks(*), codes(*)
            integer(c_size_t), value :: kind_count, left_count, right_count, number_count, mark_count, code_count
            integer(c_int32_t) :: refusal
        end function

        ! The same row from a list of records, each read where it lies. Refused with razovinto_item_count,
        ! razovinto_list_too_short.
        function razovinto_row_of_records(operations, operation_count, numbers, number_count, marks, mark_count, &
            codes, code_count) bind(c, name='razovinto_row_of_records') result(refusal)
            import :: c_int8_t, c_int32_t, c_int64_t, c_size_t, razovinto_operation
            type(razovinto_operation), intent(in) :: operations(*)
            integer(c_int64_t), intent(inout) :: numbers(*)
            integer(c_int8_t), intent(inout) :: marks(*), codes(*)
            integer(c_size_t), value :: operation_count, number_count, mark_count, code_count
            integer(c_int32_t) :: refusal
        end function
    end interface

    ! An answer of several numbers goes to a type of its own, of which `length` numbers are lent: all of them with the
    ! parameter that ends in _length. A smaller length is refused with razovinto_list_too_short before anything else,
    ! and nothing is written then. Otherwise the whole answer is written, with a refusal too: its place, and 0 for
    ! everything else.
    interface
        ! Runs a recipe at a width of 8, 16, 32 or 64 bits, for at most `allowance` steps. A recipe is two lists in
        ! postfix order: a literal is kind 0 with its number, an operation has the number 0 and takes the two values on
        ! hand that come last.
        !
        ! A result above the largest number of the width is overflowed, and a recipe goes on with it. Overflowed times 0
        ! is 0. A number by an overflowed right has the quotient 0 and the remainder itself; anything to the power of 0
        ! is 1, and 0 or 1 to an overflowed exponent is 0 or 1; a number's logarithm in an overflowed base is 0. All else
        ! with an overflowed operand is overflowed, but for an overflowed left of a quotient or a remainder and an
        ! overflowed argument of a logarithm, which are refused.
        !
        ! Refused with 5 to 13 for its shape, in this order: razovinto_unknown_width, razovinto_lengths_differ,
        ! razovinto_item_count; item by item razovinto_unknown_kind, then razovinto_literal_too_large and
        ! razovinto_hand_full for a literal, or razovinto_too_few_on_hand for an operation; razovinto_several_left,
        ! razovinto_none_left. Then it runs, and the first item that fails is the answer: razovinto_overflowed_operand,
        ! razovinto_divisor_zero, razovinto_base_below_two; or razovinto_allowance_spent.
        function razovinto_run(width, kinds, kind_count, numbers, number_count, allowance, answer, length) &
            bind(c, name='razovinto_run') result(refusal)
            import :: c_int8_t, c_int32_t, c_int64_t, c_size_t, razovinto_run_answer
            integer(c_int64_t), value :: width, allowance
            integer(c_int8_t), intent(in) :: kinds(*)
            integer(c_int64_t), intent(in) :: numbers(*)
            integer(c_size_t), value :: kind_count, number_count, length
            type(razovinto_run_answer), intent(inout) :: answer
            integer(c_int32_t) :: refusal
        end function

        ! Whether a recipe is well formed at a width; refused as above for its shape.
        function razovinto_shape(width, kinds, kind_count, numbers, number_count, answer, length) &
            bind(c, name='razovinto_shape') result(refusal)
            import :: c_int8_t, c_int32_t, c_int64_t, c_size_t, razovinto_shape_answer
            integer(c_int64_t), value :: width
            integer(c_int8_t), intent(in) :: kinds(*)
            integer(c_int64_t), intent(in) :: numbers(*)
            integer(c_size_t), value :: kind_count, number_count, length
            type(razovinto_shape_answer), intent(inout) :: answer
            integer(c_int32_t) :: refusal
        end function

        ! The range of a field that has no overflowed place. A field is two lists, numbers and marks: a mark is 0 where
        ! the number fits, and 1 where it is overflowed, and the number is 0 then. Refused with
        ! razovinto_lengths_differ, razovinto_field_empty; then at the earliest place that has a fault with
        ! razovinto_bad_mark or razovinto_overflowed_operand.
        function razovinto_scan(numbers, number_count, marks, mark_count, answer, length) &
            bind(c, name='razovinto_scan') result(refusal)
            import :: c_int8_t, c_int32_t, c_int64_t, c_size_t, razovinto_scan_answer
            integer(c_int64_t), intent(in) :: numbers(*)
            integer(c_int8_t), intent(in) :: marks(*)
            integer(c_size_t), value :: number_count, mark_count, length
            type(razovinto_scan_answer), intent(inout) :: answer
            integer(c_int32_t) :: refusal
        end function

        ! Whether a block of `length` bytes is sound: 0, or razovinto_block_length, razovinto_wrong_check,
        ! razovinto_bad_layout.
        function razovinto_sound(bytes, length) bind(c, name='razovinto_sound') result(refusal)
            import :: c_int8_t, c_int32_t, c_size_t
            integer(c_int8_t), intent(in) :: bytes(*)
            integer(c_size_t), value :: length
            integer(c_int32_t) :: refusal
        end function

        ! The block's values to numbers(1:count) and marks(1:count); nothing past them is written. Refused as
        ! razovinto_sound, then with razovinto_list_too_short where one of the two lists has fewer than count elements;
        ! the two lists stay as they are then.
        function razovinto_read(bytes, byte_count, numbers, number_count, marks, mark_count, answer, length) &
            bind(c, name='razovinto_read') result(refusal)
            import :: c_int8_t, c_int32_t, c_int64_t, c_size_t, razovinto_read_answer
            integer(c_int8_t), intent(in) :: bytes(*)
            integer(c_int64_t), intent(inout) :: numbers(*)
            integer(c_int8_t), intent(inout) :: marks(*)
            integer(c_size_t), value :: byte_count, number_count, mark_count, length
            type(razovinto_read_answer), intent(inout) :: answer
            integer(c_int32_t) :: refusal
        end function

        ! A field's blocks to the first of `bytes`, numbered from `first` on; each but the last has 55 values. Nothing
        ! past them is written. An overflowed value is written as every other. razovinto_written_size says how many
        ! bytes there must be. Refused with razovinto_lengths_differ, razovinto_field_empty; then with
        ! razovinto_bad_mark at the earliest place that has it; then with razovinto_list_too_short where there are fewer
        ! bytes than the field's blocks have, and last with razovinto_block_number_too_large where a block's number
        ! would be above 2**32 - 1. The bytes stay as they are then.
        function razovinto_write(first, numbers, number_count, marks, mark_count, bytes, byte_count, answer, length) &
            bind(c, name='razovinto_write') result(refusal)
            import :: c_int8_t, c_int32_t, c_int64_t, c_size_t, razovinto_write_answer
            integer(c_int32_t), value :: first
            integer(c_int64_t), intent(in) :: numbers(*)
            integer(c_int8_t), intent(in) :: marks(*)
            integer(c_int8_t), intent(inout) :: bytes(*)
            integer(c_size_t), value :: number_count, mark_count, byte_count, length
            type(razovinto_write_answer), intent(inout) :: answer
            integer(c_int32_t) :: refusal
        end function

        ! The first overflowed value of a run of blocks, each block being looked at whole before its marks count.
        ! Refused with razovinto_block_length, at place 0, where the run's length is no multiple of 512; or with the
        ! first bad block's refusal where no overflowed value comes before it.
        function razovinto_search(bytes, byte_count, answer, length) bind(c, name='razovinto_search') result(refusal)
            import :: c_int8_t, c_int32_t, c_size_t, razovinto_search_answer
            integer(c_int8_t), intent(in) :: bytes(*)
            integer(c_size_t), value :: byte_count, length
            type(razovinto_search_answer), intent(inout) :: answer
            integer(c_int32_t) :: refusal
        end function

        ! The least and the greatest reading of a level, to extent(1) and extent(2), each the earliest of those that are
        ! equal to it, with its own bits. A level is two lists, readings and ground marks: a mark is 0 in air and 1
        ! below ground. Readings under the ground count like the others. The order is that of sign and bits, the two
        ! zeros being equal. Refused with razovinto_list_too_short where extent_count is below 2,
        ! razovinto_lengths_differ, razovinto_field_empty; then at the earliest place that has a fault with
        ! razovinto_bad_mark or, where the mark is 0 or 1, razovinto_unusable_reading for NaN and the infinities. The
        ! extent stays as it is then.
        function razovinto_level_scan(readings, reading_count, ground, ground_count, extent, extent_count, answer, &
            length) bind(c, name='razovinto_level_scan') result(refusal)
            import :: c_float, c_int8_t, c_int32_t, c_size_t, razovinto_level_scan_answer
            real(c_float), intent(in) :: readings(*)
            integer(c_int8_t), intent(in) :: ground(*)
            real(c_float), intent(inout) :: extent(*)
            integer(c_size_t), value :: reading_count, ground_count, extent_count, length
            type(razovinto_level_scan_answer), intent(inout) :: answer
            integer(c_int32_t) :: refusal
        end function

        ! A level turned into a field: the readings' values to numbers(1:reading_count), and 0 to as many marks; nothing
        ! past them is written. Each reading must be a whole number from 0 to 16,777,215; negative zero gives 0. Refused
        ! with razovinto_lengths_differ, razovinto_field_empty; then with razovinto_list_too_short where one of the two
        ! lists has fewer elements than the level; then at the earliest place that has a fault with razovinto_bad_mark,
        ! razovinto_unusable_reading or razovinto_not_whole, in this order at one place. The two lists stay as they are
        ! then.
        function razovinto_level_to_field(readings, reading_count, ground, ground_count, numbers, number_count, marks, &
            mark_count, answer, length) bind(c, name='razovinto_level_to_field') result(refusal)
            import :: c_float, c_int8_t, c_int32_t, c_int64_t, c_size_t, razovinto_level_to_field_answer
            real(c_float), intent(in) :: readings(*)
            integer(c_int8_t), intent(in) :: ground(*)
            integer(c_int64_t), intent(inout) :: numbers(*)
            integer(c_int8_t), intent(inout) :: marks(*)
            integer(c_size_t), value :: reading_count, ground_count, number_count, mark_count, length
            type(razovinto_level_to_field_answer), intent(inout) :: answer
            integer(c_int32_t) :: refusal
        end function
    end interface

contains

    ! How many bytes a field of `count` values has in blocks.
    pure function razovinto_written_size(count) result(bytes)
        integer(c_size_t), intent(in) :: count
        integer(c_size_t) :: bytes
        bytes = (count + razovinto_block_values - 1) / razovinto_block_values * razovinto_block_size
    end function

    ! The 64 binary digits of the number in the sixteen bytes of a result.
    pure function razovinto_number(bytes) result(number)
        integer(c_int8_t), intent(in) :: bytes(*)
        integer(c_int64_t) :: number
        integer :: i
        number = 0
        do i = 8, 1, -1
            number = ior(shiftl(number, 8), iand(int(bytes(i), c_int64_t), 255_c_int64_t))
        end do
    end function

    ! Whether the result is overflowed.
    pure function razovinto_overflowed(bytes) result(overflowed)
        integer(c_int8_t), intent(in) :: bytes(*)
        logical :: overflowed
        overflowed = bytes(9) /= 0
    end function

    ! A refusal in words, as `razo` prints them; of 0 that nothing was refused, and of a number that is no refusal that
    ! it is none.
    pure function razovinto_refusal_text(refusal) result(text)
        integer(c_int32_t), intent(in) :: refusal
        character(len=:), allocatable :: text
        select case (refusal)
        case (0)
            text = 'not refused'
        case (razovinto_divisor_zero)
            text = 'divisor 0'
        case (razovinto_base_below_two)
            text = 'base below 2'
        case (razovinto_overflowed_operand)
            text = 'overflowed value where a number is needed'
        case (razovinto_quotient_too_large)
            text = 'signed quotient that doesn''t fit'
        case (razovinto_unknown_width)
            text = 'width not 8, 16, 32 or 64'
        case (razovinto_lengths_differ)
            text = 'lists that differ in length'
        case (razovinto_item_count)
            text = 'recipe of 0 items or above 256, or row of 0 operations or above 4,096'
        case (razovinto_unknown_kind)
            text = 'unknown kind, literal in a row, or operation with a number not 0'
        case (razovinto_literal_too_large)
            text = 'literal too large for the width'
        case (razovinto_too_few_on_hand)
            text = 'operation with fewer than two values on hand'
        case (razovinto_hand_full)
            text = 'literal that would be the 33rd on hand'
        case (razovinto_several_left)
            text = 'recipe ends with more than one value'
        case (razovinto_none_left)
            text = 'recipe ends with no value'
        case (razovinto_field_empty)
            text = 'field without a value'
        case (razovinto_bad_mark)
            text = 'mark not 0 or 1, or overflowed with a number not 0'
        case (razovinto_block_length)
            text = 'the block is not 512 bytes'
        case (razovinto_wrong_check)
            text = 'the check is wrong'
        case (razovinto_bad_layout)
            text = 'the edition, the count, a mark or a byte that must be zero is wrong'
        case (razovinto_list_too_short)
            text = 'list too short for what would be written'
        case (razovinto_allowance_spent)
            text = 'allowance spent'
        case (razovinto_block_number_too_large)
            text = 'block number above 2^32 - 1'
        case (razovinto_unusable_reading)
            text = 'reading is NaN or infinite'
        case (razovinto_not_whole)
            text = 'reading is not a whole number from 0 to 16,777,215'
        case (razovinto_other_block_number)
            text = 'block has another number'
        case default
            text = 'no refusal has this number'
        end select
    end function

end module
