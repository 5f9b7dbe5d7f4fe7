! The entries beyond the six at their limits, as a host written in Fortran calls them. Ends with 1 at the first thing
! that is not as it must be. The C test, limits.c, has more of the same.
program limits
    use, intrinsic :: iso_c_binding, only: c_float, c_int8_t, c_int32_t, c_int64_t, c_intptr_t, c_loc, c_ptr, &
        c_size_t, c_sizeof
    use, intrinsic :: iso_fortran_env, only: error_unit
    use razovinto
    implicit none

    ! The largest number, 2**64 - 1, and the smallest signed one, which has the digits of 2**63.
    integer(c_int64_t), parameter :: most = -1_c_int64_t, smallest = ishft(1_c_int64_t, 63)
    ! What an answer and its two neighbours have before a call.
    integer :: i
    integer(c_int64_t), parameter :: junk(150) = [(1000003_c_int64_t * i, i = 1, 150)]
    ! As many literals as no recipe may have, and their numbers.
    integer(c_int8_t), parameter :: literals(257) = razovinto_kind_literal
    integer(c_int64_t), parameter :: ones(257) = 1
    ! Readings by their bits: 1, -1, the other zero, the largest number, infinity and NaN.
    integer(c_int32_t), parameter :: one = int(z'3F800000', c_int32_t), minus_one = ibset(one, 31)
    integer(c_int32_t), parameter :: minus_zero = ibset(0_c_int32_t, 31), largest = int(z'7F7FFFFF', c_int32_t)
    integer(c_int32_t), parameter :: infinite = int(z'7F800000', c_int32_t), quiet_nan = ibset(infinite, 22)

    call check_layout()
    call check_power_fits()
    call check_signed()
    call check_scan()
    call check_shape()
    call check_run()
    call check_stopped()
    call check_blocks()
    call check_write()
    call check_search()
    call check_level_scan()
    call check_level_lengths()
    call check_plateau()
    call check_level_to_field()
    call check_field_lengths()
    call check_operation_layout()
    call check_rows()
    call check_row_lengths()
    print '(a, a)', 'limits: layout, power_fits, signed numbers, fields, recipes, blocks, levels and rows ', &
        'are as they must be'

contains

    subroutine expect(holds, what)
        logical, intent(in) :: holds
        character(len=*), intent(in) :: what
        if (holds) return
        write (error_unit, '(a, a)') 'limits: not so: ', what
        stop 1
    end subroutine

    ! Looks at three answers as numbers, of which the middle one was lent: at its numbers, which are `expected` where it
    ! was written, and at its neighbours, which must have stayed.
    subroutine expect_answer(answers, expected, length, what)
        integer(c_int64_t), intent(in) :: answers(:), expected(:)
        integer(c_size_t), intent(in) :: length
        character(len=*), intent(in) :: what
        integer :: need
        need = size(answers) / 3
        call expect(all(answers(:need) == junk(:need)), what // ': nothing before the answer changes')
        call expect(all(answers(2 * need + 1:) == junk(2 * need + 1:3 * need)), what // ': nothing after it changes')
        if (length < need) then
            call expect(all(answers == junk(:3 * need)), what // ': too short a list stays as it is')
        else
            call expect(all(answers(need + 1:2 * need) == expected), what // ': the answer')
        end if
    end subroutine

    ! What must be returned with so many numbers for an answer that needs `need`.
    pure function wanted(refusal, length, need) result(code)
        integer(c_int32_t), intent(in) :: refusal
        integer(c_size_t), intent(in) :: length, need
        integer(c_int32_t) :: code
        code = merge(razovinto_list_too_short, refusal, length < need)
    end function

    subroutine check_layout()
        type(razovinto_shape_answer) :: shape
        type(razovinto_run_answer) :: run
        type(razovinto_scan_answer) :: scan
        type(razovinto_read_answer) :: read
        type(razovinto_write_answer) :: write
        type(razovinto_search_answer) :: search
        type(razovinto_level_scan_answer) :: level
        type(razovinto_level_to_field_answer) :: field
        call expect(storage_size(shape) == 64 * razovinto_shape_length, 'the shape has its numbers')
        call expect(storage_size(run) == 64 * razovinto_run_length, 'the run has its numbers')
        call expect(storage_size(scan) == 64 * razovinto_scan_length, 'the range has its numbers')
        call expect(storage_size(read) == 64 * razovinto_read_length, "the block's head has its numbers")
        call expect(storage_size(write) == 64 * razovinto_write_length, 'what is written has its numbers')
        call expect(storage_size(search) == 64 * razovinto_search_length, 'what is found has its numbers')
        call expect(storage_size(level) == 64 * razovinto_level_scan_length, "a level's answer has its number")
        call expect(storage_size(field) == 64 * razovinto_level_to_field_length, "a level's field has its number")
        call expect(razovinto_block_size == 512 .and. razovinto_block_values == 55, 'the sizes of a block')
        shape = transfer(junk, shape)
        call expect(all([shape%place, shape%limit] == junk(:2)), "the order of a shape's numbers")
        scan = transfer(junk, scan)
        call expect(all([scan%place, scan%least, scan%greatest, scan%width] == junk(:4)), "the order of a range's")
        read = transfer(junk, read)
        call expect(all([read%place, read%number, read%count] == junk(:3)), "the order of a head's")
        write = transfer(junk, write)
        call expect(all([write%place, write%length] == junk(:2)), 'the order of what is written')
        search = transfer(junk, search)
        call expect(all([search%place, search%found, search%position, search%within] == junk(:4)), &
            'the order of what is found')
        call check_run_layout()
    end subroutine

    subroutine check_run_layout()
        type(razovinto_run_answer) :: run
        run = transfer(junk, run)
        call expect(all([run%place, run%overflowed, run%number, run%steps, run%done, run%phase] == junk(:6)), &
            'a run begins with six numbers')
        call expect(all([run%power%first_overflowed, run%power%first, run%power%second_overflowed, run%power%second, &
            run%power%exponent] == junk(7:11)), "then the power's")
        call expect(all([run%logarithm%base, run%logarithm%left, run%logarithm%count] == junk(12:14)), &
            "then the logarithm's")
        call expect(all(run%on_hand_overflowed == transfer(junk(15:18), run%on_hand_overflowed)), &
            "then the hand's marks")
        call expect(all(run%on_hand == junk(19:50)), "then the hand's numbers")
    end subroutine

    subroutine check_power_fits()
        call fits(0_c_int64_t, 0_c_int64_t, 1)
        call fits(most, 0_c_int64_t, 1)
        call fits(most, 1_c_int64_t, 1)
        call fits(most, 2_c_int64_t, 0)
        call fits(4294967295_c_int64_t, 2_c_int64_t, 1)
        call fits(4294967296_c_int64_t, 2_c_int64_t, 0)
        call fits(3_c_int64_t, 40_c_int64_t, 1)
        call fits(3_c_int64_t, 41_c_int64_t, 0)
        call fits(2_c_int64_t, 63_c_int64_t, 1)
        call fits(2_c_int64_t, 64_c_int64_t, 0)
        call fits(2_c_int64_t, most, 0)
        call fits(1_c_int64_t, most, 1)
    end subroutine

    subroutine fits(base, exponent, yes)
        integer(c_int64_t), intent(in) :: base, exponent
        integer, intent(in) :: yes
        call expect(razovinto_power_fits(base, exponent) == yes, 'whether a power fits')
    end subroutine

    subroutine check_signed()
        call divide(-7_c_int64_t, 2_c_int64_t, 0, -3_c_int64_t, 0, -1_c_int64_t)
        call divide(7_c_int64_t, -2_c_int64_t, 0, -3_c_int64_t, 0, 1_c_int64_t)
        call divide(-7_c_int64_t, -2_c_int64_t, 0, 3_c_int64_t, 0, -1_c_int64_t)
        call divide(smallest, 1_c_int64_t, 0, smallest, 0, 0_c_int64_t)
        call divide(smallest, -1_c_int64_t, razovinto_quotient_too_large, 0_c_int64_t, 0, 0_c_int64_t)
        call divide(smallest, 0_c_int64_t, razovinto_divisor_zero, 0_c_int64_t, razovinto_divisor_zero, 0_c_int64_t)
    end subroutine

    ! Both entries, with each length of the list from 0 to 2.
    subroutine divide(left, right, quotient_refusal, quotient, remainder_refusal, remainder)
        integer(c_int64_t), intent(in) :: left, right, quotient, remainder
        integer(c_int32_t), intent(in) :: quotient_refusal, remainder_refusal
        integer(c_size_t), parameter :: need = 1
        integer(c_int64_t) :: numbers(3)
        integer(c_int32_t) :: code
        integer(c_size_t) :: length
        do length = 0, 2
            numbers = junk(:3)
            code = razovinto_signed_quotient(left, right, numbers(2:), length)
            call expect(code == wanted(quotient_refusal, length, need), 'what a signed quotient returns')
            call expect_answer(numbers, [merge(quotient, junk(2), code == 0)], length, 'a signed quotient')
            numbers = junk(:3)
            code = razovinto_signed_remainder(left, right, numbers(2:), length)
            call expect(code == wanted(remainder_refusal, length, need), 'what a signed remainder returns')
            call expect_answer(numbers, [merge(remainder, junk(2), code == 0)], length, 'a signed remainder')
        end do
    end subroutine

    subroutine check_scan()
        integer(c_int64_t), parameter :: numbers(4) = [9_c_int64_t, most, 0_c_int64_t, 256_c_int64_t]
        integer(c_int8_t), parameter :: marks(4) = 0
        call scan(numbers, marks, 0, [0_c_int64_t, 0_c_int64_t, most, 64_c_int64_t])
        call scan(numbers(3:), marks(3:), 0, [0_c_int64_t, 0_c_int64_t, 256_c_int64_t, 9_c_int64_t])
        call scan([most, most, most], marks(:3), 0, [0_c_int64_t, most, most, 0_c_int64_t])
        call scan(numbers(:0), marks(:0), razovinto_field_empty, [0_c_int64_t, 0_c_int64_t, 0_c_int64_t, 0_c_int64_t])
        call scan(numbers, marks(:3), razovinto_lengths_differ, [0_c_int64_t, 0_c_int64_t, 0_c_int64_t, 0_c_int64_t])
        call scan(numbers, [0_c_int8_t, 0_c_int8_t, 1_c_int8_t, 2_c_int8_t], razovinto_overflowed_operand, &
            [2_c_int64_t, 0_c_int64_t, 0_c_int64_t, 0_c_int64_t])
        call scan(numbers, [0_c_int8_t, 0_c_int8_t, 0_c_int8_t, -1_c_int8_t], razovinto_bad_mark, &
            [3_c_int64_t, 0_c_int64_t, 0_c_int64_t, 0_c_int64_t])
    end subroutine

    subroutine scan(numbers, marks, refusal, expected)
        integer(c_int64_t), intent(in) :: numbers(:), expected(:)
        integer(c_int8_t), intent(in) :: marks(:)
        integer(c_int32_t), intent(in) :: refusal
        type(razovinto_scan_answer) :: range(3)
        integer(c_int32_t) :: code
        integer(c_size_t) :: length
        do length = 0, razovinto_scan_length + 1
            range = transfer(junk, range, 3)
            code = razovinto_scan(numbers, size(numbers, kind=c_size_t), marks, size(marks, kind=c_size_t), range(2), &
                length)
            call expect(code == wanted(refusal, length, razovinto_scan_length), 'what a scan returns')
            call expect_answer(transfer(range, junk), expected, length, 'a scan')
        end do
    end subroutine

    subroutine check_shape()
        call shape(8_c_int64_t, literals(:1), ones(:1), 0, 0, 255)
        call shape(7_c_int64_t, literals(:1), ones(:1), razovinto_unknown_width, 0, 0)
        call shape(264_c_int64_t, literals(:1), ones(:1), razovinto_unknown_width, 0, 0)
        call shape(most, literals(:1), ones(:1), razovinto_unknown_width, 0, 0)
        call shape(8_c_int64_t, literals(:2), ones(:1), razovinto_lengths_differ, 0, 0)
        call shape(8_c_int64_t, literals(:0), ones(:0), razovinto_item_count, 0, 0)
        call shape(8_c_int64_t, literals, ones, razovinto_item_count, 0, 0)
        call shape(8_c_int64_t, [-1_c_int8_t], ones(:1), razovinto_unknown_kind, 0, 0)
        call shape(8_c_int64_t, literals(:2), 256 * ones(:2), razovinto_literal_too_large, 0, 0)
        call shape(8_c_int64_t, [razovinto_kind_literal, razovinto_kind_sum], [1_c_int64_t, 0_c_int64_t], &
            razovinto_too_few_on_hand, 1, 0)
        call shape(8_c_int64_t, literals(:33), ones(:33), razovinto_hand_full, 32, 0)
        call shape(8_c_int64_t, literals(:32), ones(:32), razovinto_several_left, 32, 0)
    end subroutine

    ! The shape alone, and the run, which must be refused in the same way.
    subroutine shape(width, kinds, numbers, refusal, place, limit)
        integer(c_int64_t), intent(in) :: width, numbers(:)
        integer(c_int8_t), intent(in) :: kinds(:)
        integer(c_int32_t), intent(in) :: refusal
        integer, intent(in) :: place, limit
        type(razovinto_shape_answer) :: answers(3)
        integer(c_int32_t) :: code
        integer(c_size_t) :: length
        do length = 0, razovinto_shape_length + 1
            answers = transfer(junk, answers, 3)
            code = razovinto_shape(width, kinds, size(kinds, kind=c_size_t), numbers, size(numbers, kind=c_size_t), &
                answers(2), length)
            call expect(code == wanted(refusal, length, razovinto_shape_length), 'what a shape returns')
            call expect_answer(transfer(answers, junk), int([place, limit], c_int64_t), length, 'a shape')
        end do
        if (refusal /= 0) call run(width, kinds, numbers, most, refusal, stopped(place, 0, 0))
    end subroutine

    subroutine run(width, kinds, numbers, allowance, refusal, expected)
        integer(c_int64_t), intent(in) :: width, numbers(:), allowance
        integer(c_int8_t), intent(in) :: kinds(:)
        integer(c_int32_t), intent(in) :: refusal
        type(razovinto_run_answer), intent(in) :: expected
        type(razovinto_run_answer) :: answers(3)
        integer(c_int32_t) :: code
        integer(c_size_t) :: length
        do length = 0, razovinto_run_length + 1
            answers = transfer(junk, answers, 3)
            code = razovinto_run(width, kinds, size(kinds, kind=c_size_t), numbers, size(numbers, kind=c_size_t), &
                allowance, answers(2), length)
            call expect(code == wanted(refusal, length, razovinto_run_length), 'what a run returns')
            call expect_answer(transfer(answers, junk), transfer(expected, junk), length, 'a run')
        end do
    end subroutine

    ! A run's answer that is 0 but for these.
    pure function stopped(place, steps, done) result(answer)
        integer, intent(in) :: place, steps, done
        type(razovinto_run_answer) :: answer
        answer = transfer([(0_c_int64_t, i = 1, 50)], answer)
        answer%place = place
        answer%steps = steps
        answer%done = done
    end function

    subroutine check_run()
        integer(c_int8_t), parameter :: sum(3) = [razovinto_kind_literal, razovinto_kind_literal, razovinto_kind_sum]
        integer(c_int8_t), parameter :: quotient(3) = &
            [razovinto_kind_literal, razovinto_kind_literal, razovinto_kind_quotient]
        type(razovinto_run_answer) :: expected
        expected = stopped(0, 3, 0)
        expected%overflowed = 1
        call run(64_c_int64_t, sum, [most, 1_c_int64_t, 0_c_int64_t], 3_c_int64_t, 0, expected)
        call run(8_c_int64_t, sum, [255_c_int64_t, 1_c_int64_t, 0_c_int64_t], most, 0, expected)
        expected%overflowed = 0
        expected%number = most
        call run(64_c_int64_t, sum, [most - 1, 1_c_int64_t, 0_c_int64_t], 3_c_int64_t, 0, expected)
        call run(8_c_int64_t, quotient, [7_c_int64_t, 0_c_int64_t, 0_c_int64_t], most, razovinto_divisor_zero, &
            stopped(2, 3, 0))
        call check_overflowed()
    end subroutine

    ! 255 1 sum 0, to the power and as a quotient: the power is known and has one step, the quotient is refused.
    subroutine check_overflowed()
        integer(c_int8_t), parameter :: kinds(4) = [literals(:2), razovinto_kind_sum, razovinto_kind_literal]
        integer(c_int64_t), parameter :: numbers(5) = [255, 1, 0, 0, 0]
        type(razovinto_run_answer) :: expected
        expected = stopped(0, 5, 0)
        expected%number = 1
        call run(8_c_int64_t, [kinds, razovinto_kind_power], numbers, 5_c_int64_t, 0, expected)
        call run(8_c_int64_t, [kinds, razovinto_kind_quotient], numbers, most, razovinto_overflowed_operand, &
            stopped(4, 5, 0))
    end subroutine

    ! A power and a logarithm stopped within, and a full hand.
    subroutine check_stopped()
        integer(c_int8_t), parameter :: power(3) = &
            [razovinto_kind_literal, razovinto_kind_literal, razovinto_kind_power]
        integer(c_int8_t), parameter :: logarithm(3) = &
            [razovinto_kind_literal, razovinto_kind_literal, razovinto_kind_logarithm]
        integer(c_int64_t), parameter :: powers(3) = [16, 7, 0], logarithms(3) = [2, 255, 0]
        type(razovinto_run_answer) :: expected
        expected = stopped(2, 4, 2)
        expected%phase = razovinto_within_power
        expected%power = razovinto_power_numbers(0, 16, 1, 0, 3)
        call run(8_c_int64_t, power, powers, 4_c_int64_t, razovinto_allowance_spent, expected)
        expected = stopped(2, 9, 2)
        expected%phase = razovinto_within_logarithm
        expected%logarithm = razovinto_logarithm_numbers(2, 3, 6)
        call run(8_c_int64_t, logarithm, logarithms, 9_c_int64_t, razovinto_allowance_spent, expected)
        expected = stopped(0, 0, 0)
        call run(8_c_int64_t, power, powers, 0_c_int64_t, razovinto_allowance_spent, expected)
        call check_hand()
    end subroutine

    ! 255 1 sum and 31 literals, added up: 32 values on hand, of which the first is overflowed.
    subroutine check_hand()
        integer(c_int8_t), parameter :: kinds(65) = &
            [literals(:2), razovinto_kind_sum, literals(:31), [(razovinto_kind_sum, i = 1, 31)]]
        integer(c_int64_t), parameter :: numbers(65) = [255_c_int64_t, 1_c_int64_t, 0_c_int64_t, &
            [(int(i, c_int64_t), i = 101, 131)], [(0_c_int64_t, i = 1, 31)]]
        type(razovinto_run_answer) :: expected
        expected = stopped(34, 34, 34)
        expected%on_hand_overflowed(1) = 1
        expected%on_hand(2:) = numbers(4:34)
        call run(8_c_int64_t, kinds, numbers, 34_c_int64_t, razovinto_allowance_spent, expected)
    end subroutine

    ! The block of the numbers 1000 + i, where the sixth value is overflowed.
    function made(number, count) result(bytes)
        integer(c_int64_t), intent(in) :: number
        integer, intent(in) :: count
        integer(c_int8_t) :: bytes(512)
        integer :: place
        bytes = 0
        call put(number, bytes(1:4))
        bytes(5) = int(count, c_int8_t)
        bytes(6) = 1
        do place = 1, count
            if (place == 6) then
                bytes(448 + place) = 1
            else
                call put(1000_c_int64_t + place, bytes(8 * place + 1:8 * place + 8))
            end if
        end do
        call check(bytes)
    end function

    subroutine put(number, bytes)
        integer(c_int64_t), intent(in) :: number
        integer(c_int8_t), intent(out) :: bytes(:)
        integer :: place, digits
        do place = 1, size(bytes)
            digits = int(ibits(number, 8 * place - 8, 8))
            bytes(place) = int(merge(digits - 256, digits, digits > 127), c_int8_t)
        end do
    end subroutine

    ! Makes a block's check right.
    subroutine check(bytes)
        integer(c_int8_t), intent(inout) :: bytes(512)
        integer(c_int64_t) :: sum
        integer :: place
        sum = 0
        do place = 1, 508
            sum = sum + place * iand(int(bytes(place), c_int64_t), 255_c_int64_t)
        end do
        call put(sum, bytes(509:512))
    end subroutine

    subroutine check_blocks()
        integer(c_int8_t) :: block(513)
        block = 0
        block(:512) = made(4294967295_c_int64_t, 55)
        call read(block(:512), 55, 55, 0, 4294967295_c_int64_t, 55)
        call read(block(:512), 58, 56, 0, 4294967295_c_int64_t, 55)
        call read(block(:512), 54, 55, razovinto_list_too_short, 0_c_int64_t, 0)
        call read(block(:512), 55, 54, razovinto_list_too_short, 0_c_int64_t, 0)
        call read(block(:511), 55, 55, razovinto_block_length, 0_c_int64_t, 0)
        call read(block, 55, 55, razovinto_block_length, 0_c_int64_t, 0)
        call read(block(:0), 0, 0, razovinto_block_length, 0_c_int64_t, 0)
        block(512) = 1
        call read(block(:512), 55, 55, razovinto_wrong_check, 0_c_int64_t, 0)
        block(6) = 2
        call check(block(:512))
        call read(block(:512), 0, 0, razovinto_bad_layout, 0_c_int64_t, 0)
        block(5:6) = [56_c_int8_t, 1_c_int8_t]
        call check(block(:512))
        call read(block(:512), 60, 60, razovinto_bad_layout, 0_c_int64_t, 0)
        block(:512) = made(0_c_int64_t, 0)
        call read(block(:512), 0, 0, 0, 0_c_int64_t, 0)
    end subroutine

    ! A read into lists with guards before and after, and whether the block is sound.
    subroutine read(bytes, room_numbers, room_marks, refusal, number, count)
        integer(c_int8_t), intent(in) :: bytes(:)
        integer, intent(in) :: room_numbers, room_marks, count
        integer(c_int32_t), intent(in) :: refusal
        integer(c_int64_t), intent(in) :: number
        type(razovinto_read_answer) :: head(3)
        integer(c_int64_t) :: numbers(0:room_numbers + 1), expected(0:room_numbers + 1)
        integer(c_int8_t) :: marks(0:room_marks + 1), expected_marks(0:room_marks + 1)
        integer(c_int32_t) :: code
        integer(c_size_t) :: length
        integer :: place
        do length = 0, razovinto_read_length + 1
            numbers = 7777777
            marks = 9
            expected = numbers
            expected_marks = marks
            if (length >= razovinto_read_length) then
                do place = 1, count
                    expected(place) = merge(0, 1000 + place, place == 6)
                    expected_marks(place) = merge(1_c_int8_t, 0_c_int8_t, place == 6)
                end do
            end if
            head = transfer(junk, head, 3)
            code = razovinto_read(bytes, size(bytes, kind=c_size_t), numbers(1:), int(room_numbers, c_size_t), &
                marks(1:), int(room_marks, c_size_t), head(2), length)
            call expect(code == wanted(refusal, length, razovinto_read_length), 'what a read returns')
            call expect_answer(transfer(head, junk), [0_c_int64_t, number, int(count, c_int64_t)], length, 'a read')
            call expect(all(numbers == expected) .and. all(marks == expected_marks), 'the values of a read')
        end do
        code = merge(0_c_int32_t, refusal, refusal == razovinto_list_too_short)
        call expect(razovinto_sound(bytes, size(bytes, kind=c_size_t)) == code, 'whether a block is sound')
    end subroutine

    ! Fields whose numbers are those of `made`, in two blocks of 55 values and a third of one.
    subroutine check_write()
        integer(c_int64_t) :: numbers(111)
        integer(c_int8_t) :: marks(111)
        integer, parameter :: counts(7) = [1, 54, 55, 56, 109, 110, 111], sizes(7) = [1, 1, 1, 2, 2, 2, 3] * 512
        integer :: place
        do place = 1, 111
            marks(place) = merge(1_c_int8_t, 0_c_int8_t, modulo(place - 1, 55) + 1 == 6)
            numbers(place) = merge(0, 1001 + modulo(place - 1, 55), marks(place) == 1)
        end do
        do place = 1, size(counts)
            associate (count => counts(place), bytes => sizes(place))
                call expect(razovinto_written_size(int(count, c_size_t)) == bytes, 'how many bytes the module says')
                call write(7_c_int32_t, numbers(:count), marks(:count), bytes, 0, 0)
                call write(-3_c_int32_t, numbers(:count), marks(:count), bytes + 1, 0, 0)
                call write(-3_c_int32_t, numbers(:count), marks(:count), bytes - 1, razovinto_list_too_short, 0)
                call write(-1_c_int32_t, numbers(:count), marks(:count), 0, razovinto_list_too_short, 0)
            end associate
        end do
        call write(-1_c_int32_t, numbers(:55), marks(:55), 512, 0, 0)
        call write(-2_c_int32_t, numbers(:56), marks(:56), 1024, 0, 0)
        call write(-1_c_int32_t, numbers(:56), marks(:56), 1024, razovinto_block_number_too_large, 0)
        call write(-2_c_int32_t, numbers, marks, 1536, razovinto_block_number_too_large, 0)
        call write(0_c_int32_t, numbers(:0), marks(:0), 512, razovinto_field_empty, 0)
        call write(-1_c_int32_t, numbers(:56), marks(:55), 0, razovinto_lengths_differ, 0)
        call write(0_c_int32_t, numbers(:0), marks(:1), 512, razovinto_lengths_differ, 0)
        marks(111) = -1
        call write(0_c_int32_t, numbers, marks, 1536, razovinto_bad_mark, 110)
        numbers(61) = 1
        call write(-1_c_int32_t, numbers, marks, 0, razovinto_bad_mark, 60)
        marks(1) = 2
        call write(-1_c_int32_t, numbers, marks, 1536, razovinto_bad_mark, 0)
    end subroutine

    ! A write to a run with guards before and after.
    subroutine write(first, numbers, marks, room, refusal, place)
        integer(c_int32_t), intent(in) :: first, refusal
        integer(c_int64_t), intent(in) :: numbers(:)
        integer(c_int8_t), intent(in) :: marks(:)
        integer, intent(in) :: room, place
        type(razovinto_write_answer) :: answers(3)
        integer(c_int8_t) :: bytes(0:room + 1), expected(0:room + 1)
        integer(c_int32_t) :: code
        integer(c_size_t) :: length
        integer :: blocks, at
        blocks = merge((size(numbers) + 54) / 55, 0, refusal == 0)
        do length = 0, razovinto_write_length + 1
            bytes = 77
            expected = bytes
            if (length >= razovinto_write_length) then
                do at = 0, blocks - 1
                    expected(512 * at + 1:512 * at + 512) = &
                        made(iand(int(first, c_int64_t), 4294967295_c_int64_t) + at, min(55, size(numbers) - 55 * at))
                end do
            end if
            answers = transfer(junk, answers, 3)
            code = razovinto_write(first, numbers, size(numbers, kind=c_size_t), marks, size(marks, kind=c_size_t), &
                bytes(1:), int(room, c_size_t), answers(2), length)
            call expect(code == wanted(refusal, length, razovinto_write_length), 'what a write returns')
            call expect_answer(transfer(answers, junk), int([place, 512 * blocks], c_int64_t), length, 'a write')
            call expect(all(bytes == expected), 'the bytes of a write')
        end do
    end subroutine

    subroutine check_search()
        integer(c_int8_t) :: blocks(1536)
        blocks = [made(0_c_int64_t, 5), made(1_c_int64_t, 6), made(2_c_int64_t, 3)]
        call search(blocks, 0, [0, 1, 1, 5])
        call search(blocks(:512), 0, [0, 0, 0, 0])
        call search(blocks(:0), 0, [0, 0, 0, 0])
        call search(blocks(:1023), razovinto_block_length, [0, 0, 0, 0])
        blocks(1025) = 9
        call search(blocks, 0, [0, 1, 1, 5])
        blocks(513) = 9
        call search(blocks, razovinto_wrong_check, [1, 0, 0, 0])
        blocks(6) = 2
        call check(blocks(:512))
        call search(blocks, razovinto_bad_layout, [0, 0, 0, 0])
    end subroutine

    subroutine search(bytes, refusal, expected)
        integer(c_int8_t), intent(in) :: bytes(:)
        integer(c_int32_t), intent(in) :: refusal
        integer, intent(in) :: expected(4)
        type(razovinto_search_answer) :: found(3)
        integer(c_int32_t) :: code
        integer(c_size_t) :: length
        do length = 0, razovinto_search_length + 1
            found = transfer(junk, found, 3)
            code = razovinto_search(bytes, size(bytes, kind=c_size_t), found(2), length)
            call expect(code == wanted(refusal, length, razovinto_search_length), 'what a search returns')
            call expect_answer(transfer(found, junk), int(expected, c_int64_t), length, 'a search')
        end do
    end subroutine

    ! Levels. Readings stand as the bits of floats, so that no NaN and no zero changes on its way.

    subroutine check_level_scan()
        integer :: place, digit
        integer(c_int32_t) :: level(5)
        ! -1, 1, 0, the smallest number above 0 and the largest number.
        call level_scan([minus_one, one, 0, 1, largest], [0, 1, 0, 1, 0], 2, 0, 0, [minus_one, largest])
        call level_scan([one], [1], 2, 0, 0, [one, one])
        call level_scan([0, minus_zero, 0], [0, 0, 0], 2, 0, 0, [0, 0])
        call level_scan([minus_zero, 0], [0, 0], 2, 0, 0, [minus_zero, minus_zero])
        call level_scan([one, 0, minus_zero], [0, 1, 0], 2, 0, 0, [0, one])
        call level_scan([minus_one, minus_zero, 0], [0, 1, 0], 2, 0, 0, [minus_one, minus_zero])
        call level_scan([ibset(2, 31), ibset(1, 31), 1, 2], [0, 0, 0, 0], 5, 0, 0, [ibset(2, 31), 2])
        call level_scan([one], [2], 2, razovinto_bad_mark, 0, [0, 0])
        call level_scan([one, quiet_nan], [0, 255], 2, razovinto_bad_mark, 1, [0, 0])
        call level_scan([one, one], [0], 2, razovinto_lengths_differ, 0, [0, 0])
        call level_scan([integer(c_int32_t) ::], [0], 2, razovinto_lengths_differ, 0, [0, 0])
        call level_scan([integer(c_int32_t) ::], [integer ::], 2, razovinto_field_empty, 0, [0, 0])
        ! Too short an extent comes before everything but too short an answer.
        do place = 0, 1
            call level_scan([one], [0], place, razovinto_list_too_short, 0, [0, 0])
            call level_scan([quiet_nan, one], [2], place, razovinto_list_too_short, 0, [0, 0])
        end do
        ! NaN with each digit of its payload alone, and the infinities, of both signs.
        do place = 0, 4, 2
            do digit = -1, 22
                level = one
                level(place + 1) = infinite
                if (digit >= 0) level(place + 1) = ibset(infinite, digit)
                call level_scan(level, [0, 0, 0, 0, 0], 2, razovinto_unusable_reading, place, [0, 0])
                level(place + 1) = ibset(level(place + 1), 31)
                call level_scan(level, [1, 1, 1, 1, 1], 2, razovinto_unusable_reading, place, [0, 0])
            end do
        end do
    end subroutine

    ! A scan of a level to an extent of so many floats, with guards before and after.
    subroutine level_scan(level, marks, room, refusal, place, extent)
        integer(c_int32_t), intent(in) :: level(:), refusal, extent(2)
        integer, intent(in) :: marks(:), room, place
        type(razovinto_level_scan_answer) :: answers(3)
        real(c_float) :: readings(size(level)), floats(0:room + 1)
        integer(c_int8_t) :: ground(size(marks))
        integer(c_int32_t) :: code, before(0:room + 1), expected(0:room + 1)
        integer(c_size_t) :: length
        readings = transfer(level, readings)
        ground = as_bytes(marks)
        before = quiet_nan + 5
        do length = 0, razovinto_level_scan_length + 1
            floats = transfer(before, floats)
            expected = before
            if (length >= razovinto_level_scan_length .and. refusal == 0) expected(1:2) = extent
            answers = transfer(junk, answers, 3)
            code = razovinto_level_scan(readings, size(readings, kind=c_size_t), ground, size(ground, kind=c_size_t), &
                floats(1:), int(room, c_size_t), answers(2), length)
            call expect(code == wanted(refusal, length, razovinto_level_scan_length), "what a level's scan returns")
            call expect_answer(transfer(answers, junk), [int(place, c_int64_t)], length, "a level's scan")
            call expect(all(transfer(floats, before) == expected), "the bits of a level's extent")
            call expect(all(transfer(readings, level) == level), "the bits of a level's readings")
        end do
    end subroutine

    pure function as_bytes(marks) result(bytes)
        integer, intent(in) :: marks(:)
        integer(c_int8_t) :: bytes(size(marks))
        bytes = int(merge(marks - 256, marks, marks > 127), c_int8_t)
    end function

    ! Levels of each telling length, with what counts at the last place.
    subroutine check_level_lengths()
        integer, parameter :: lengths(5) = [2, 4095, 4096, 4097, 65536]
        integer(c_int32_t), allocatable :: level(:)
        integer, allocatable :: marks(:)
        integer :: at, count
        do at = 1, size(lengths)
            count = lengths(at)
            level = spread(one, 1, count)
            marks = spread(0, 1, count)
            level(count) = minus_one
            call level_scan(level, marks, 2, 0, 0, [minus_one, one])
            level(count) = largest
            call level_scan(level, marks, 2, 0, 0, [one, largest])
            level(count) = ibset(infinite, 0)
            call level_scan(level, marks, 2, razovinto_unusable_reading, count - 1, [0, 0])
            marks(count) = 2
            call level_scan(level, marks, 2, razovinto_bad_mark, count - 1, [0, 0])
        end do
    end subroutine

    ! The accident of version two: one NaN in a plateau of 65,536 readings, all others of which are equal, is named by
    ! its place.
    subroutine check_plateau()
        integer, parameter :: places(5) = [0, 4095, 4096, 40000, 65535]
        integer(c_int32_t), allocatable :: level(:)
        integer, allocatable :: marks(:)
        integer :: at
        level = spread(transfer(258.125_c_float, one), 1, 65536)
        marks = spread(1, 1, 65536)
        call level_scan(level, marks, 2, 0, 0, [level(1), level(1)])
        do at = 1, size(places)
            level(places(at) + 1) = quiet_nan
            call level_scan(level, marks, 2, razovinto_unusable_reading, places(at), [0, 0])
            level(places(at) + 1) = level(modulo(places(at) + 1, 65536) + 1)
        end do
    end subroutine

    subroutine check_level_to_field()
        real(c_float), parameter :: whole(8) = [0.0_c_float, 1.0_c_float, 2.0_c_float, 255.0_c_float, &
            8388607.0_c_float, 8388608.0_c_float, 16777214.0_c_float, 16777215.0_c_float]
        real(c_float), parameter :: others(9) = [16777216.0_c_float, 0.5_c_float, 8388607.5_c_float, -1.0_c_float, &
            1.5_c_float, -16777215.0_c_float, 4294967296.0_c_float, tiny(0.0_c_float), huge(0.0_c_float)]
        integer(c_int32_t) :: level(3)
        integer :: at
        call level_to_field(transfer(whole, [one]), [0, 1, 0, 1, 0, 1, 0, 1], 8, 8, 0, 0)
        call level_to_field([minus_zero, 0, minus_zero], [0, 0, 1], 4, 3, 0, 0)
        do at = 1, size(others)
            level = transfer([16777215.0_c_float, others(at), 0.0_c_float], level)
            call level_to_field(level, [0, 1, 0], 3, 4, razovinto_not_whole, 1)
            call level_to_field(level, [0, 2, 0], 3, 4, razovinto_bad_mark, 1)
            call level_to_field(level, [0, 1, 0], 2, 3, razovinto_list_too_short, 0)
            level(1) = ibset(infinite, 31)
            call level_to_field(level, [0, 1, 0], 3, 3, razovinto_unusable_reading, 0)
        end do
        call level_to_field([one, one], [0], 0, 0, razovinto_lengths_differ, 0)
        call level_to_field([integer(c_int32_t) ::], [integer ::], 0, 0, razovinto_field_empty, 0)
    end subroutine

    ! Fields of each telling length, and lists that are one too short.
    subroutine check_field_lengths()
        integer, parameter :: lengths(6) = [1, 5, 4095, 4096, 4097, 65536]
        integer(c_int32_t), allocatable :: level(:)
        integer, allocatable :: marks(:)
        integer :: at, count
        do at = 1, size(lengths)
            count = lengths(at)
            level = spread(one, 1, count)
            marks = spread(1, 1, count)
            level(count) = transfer(16777215.0_c_float, one)
            call level_to_field(level, marks, count, count, 0, 0)
            call level_to_field(level, marks, count + 1, count + 2, 0, 0)
            call level_to_field(level, marks, count - 1, count, razovinto_list_too_short, 0)
            call level_to_field(level, marks, count, count - 1, razovinto_list_too_short, 0)
            level(count) = quiet_nan
            call level_to_field(level, marks, count, count, razovinto_unusable_reading, count - 1)
        end do
    end subroutine

    ! A level turned into a field in lists of so many elements, with guards before and after.
    subroutine level_to_field(level, marks, room_numbers, room_marks, refusal, place)
        integer(c_int32_t), intent(in) :: level(:), refusal
        integer, intent(in) :: marks(:), room_numbers, room_marks, place
        type(razovinto_level_to_field_answer) :: answers(3)
        real(c_float) :: readings(size(level))
        integer(c_int8_t) :: ground(size(marks)), field_marks(0:room_marks + 1), expected_marks(0:room_marks + 1)
        integer(c_int64_t) :: numbers(0:room_numbers + 1), expected(0:room_numbers + 1)
        integer(c_int32_t) :: code
        integer(c_size_t) :: length
        integer :: count
        count = merge(size(level), 0, refusal == 0)
        readings = transfer(level, readings)
        ground = as_bytes(marks)
        do length = 0, razovinto_level_to_field_length + 1
            numbers = 7777777
            field_marks = 9
            expected = numbers
            expected_marks = field_marks
            if (length >= razovinto_level_to_field_length) then
                expected(1:count) = int(readings(:count), c_int64_t)
                expected_marks(1:count) = 0
            end if
            answers = transfer(junk, answers, 3)
            code = razovinto_level_to_field(readings, size(readings, kind=c_size_t), ground, &
                size(ground, kind=c_size_t), numbers(1:), int(room_numbers, c_size_t), field_marks(1:), &
                int(room_marks, c_size_t), answers(2), length)
            call expect(code == wanted(refusal, length, razovinto_level_to_field_length), 'what the turning returns')
            call expect_answer(transfer(answers, junk), [int(place, c_int64_t)], length, "a level's field")
            call expect(all(numbers == expected), "the numbers of a level's field")
            call expect(all(field_marks == expected_marks), "the marks of a level's field")
            call expect(all(transfer(readings, level) == level), "the bits of a level's readings that are turned")
        end do
    end subroutine

    ! Rows, each by plain lists and by records.

    ! A record lies as the library reads it: 24 bytes, its fields at 0, 8 and 16.
    subroutine check_operation_layout()
        type(razovinto_operation), target :: operations(2)
        integer(c_intptr_t) :: start
        start = address(c_loc(operations(1)))
        call expect(c_sizeof(operations(1)) == 24, 'an operation has 24 bytes')
        call expect(address(c_loc(operations(2))) - start == 24, 'operations lie one after the other')
        call expect(address(c_loc(operations(1)%kind)) == start, 'a kind lies at 0')
        call expect(address(c_loc(operations(1)%left)) - start == 8, 'a left lies at 8')
        call expect(address(c_loc(operations(1)%right)) - start == 16, 'a right lies at 16')
        call expect(razovinto_row_most == 4096, 'how many operations a row may have')
    end subroutine

    pure function address(pointer) result(number)
        type(c_ptr), intent(in) :: pointer
        integer(c_intptr_t) :: number
        number = transfer(pointer, number)
    end function

    ! Operations, and the numbers, marks and codes that they come to. A byte from 128 on is below 0 here, as 255 is -1.
    subroutine check_rows()
        integer(c_int8_t), parameter :: kinds(16) = int([1, 1, 2, 2, 3, 3, 4, 4, 5, 5, 6, 6, 0, 7, -127, -1], c_int8_t)
        integer(c_int64_t), parameter :: lefts(16) = [most - 1, most, most, 3_c_int64_t, most, 7_c_int64_t, most, &
            0_c_int64_t, 2_c_int64_t, 3_c_int64_t, 2_c_int64_t, 1_c_int64_t, 1_c_int64_t, 7_c_int64_t, most, &
            0_c_int64_t]
        integer(c_int64_t), parameter :: rights(16) = [1_c_int64_t, 2_c_int64_t, 2_c_int64_t, 5_c_int64_t, &
            10_c_int64_t, 0_c_int64_t, 10_c_int64_t, 0_c_int64_t, 63_c_int64_t, 41_c_int64_t, most, 5_c_int64_t, &
            2_c_int64_t, 2_c_int64_t, most, 0_c_int64_t]
        integer(c_int64_t), parameter :: numbers(16) = [most, 0_c_int64_t, 0_c_int64_t, 15_c_int64_t, &
            1844674407370955161_c_int64_t, 0_c_int64_t, 5_c_int64_t, 0_c_int64_t, smallest, 0_c_int64_t, 63_c_int64_t, &
            0_c_int64_t, 0_c_int64_t, 0_c_int64_t, 0_c_int64_t, 0_c_int64_t]
        integer, parameter :: marks(16) = [0, 1, 1, 0, 0, 0, 0, 0, 0, 1, 0, 0, 0, 0, 0, 0]
        integer, parameter :: codes(16) = [0, 0, 0, 0, 0, 1, 0, 1, 0, 0, 0, 2, 8, 8, 8, 8]
        integer :: at
        call row(kinds, lefts, rights, [16, 16, 16], 0, numbers, marks, codes)
        call row(kinds, lefts, rights, [18, 17, 19], 0, numbers, marks, codes)
        do at = 1, 16
            call row(cshift(kinds, at), cshift(lefts, at), cshift(rights, at), [16, 16, 16], 0, cshift(numbers, at), &
                cshift(marks, at), cshift(codes, at))
            call row(kinds(at:at), lefts(at:at), rights(at:at), [1, 1, 1], 0, numbers(at:at), marks(at:at), &
                codes(at:at))
        end do
        do at = 0, 15
            call row(kinds, lefts, rights, [at, 16, 16], razovinto_list_too_short, numbers, marks, codes)
            call row(kinds, lefts, rights, [16, at, 16], razovinto_list_too_short, numbers, marks, codes)
            call row(kinds, lefts, rights, [16, 16, at], razovinto_list_too_short, numbers, marks, codes)
        end do
        call row(kinds(:15), lefts, rights, [0, 0, 0], razovinto_lengths_differ, numbers, marks, codes)
        call row(kinds, lefts(:15), rights, [16, 16, 16], razovinto_lengths_differ, numbers, marks, codes)
        call row(kinds, lefts, rights(:15), [16, 16, 16], razovinto_lengths_differ, numbers, marks, codes)
        call row(kinds(:0), lefts(:0), rights(:1), [0, 0, 0], razovinto_lengths_differ, numbers, marks, codes)
        call row(kinds(:0), lefts(:0), rights(:0), [0, 0, 0], razovinto_item_count, numbers, marks, codes)
        call row(kinds(:0), lefts(:0), rights(:0), [3, 3, 3], razovinto_item_count, numbers, marks, codes)
    end subroutine

    subroutine check_row_lengths()
        call check_row_length(1, 0, razovinto_list_too_short)
        call check_row_length(55, 0, razovinto_list_too_short)
        call check_row_length(4095, 0, razovinto_list_too_short)
        call check_row_length(4096, 0, razovinto_list_too_short)
        call check_row_length(4097, razovinto_item_count, razovinto_item_count)
    end subroutine

    ! A row of so many products, and a remainder by 0 at its end: what must be returned with room for it, and without.
    subroutine check_row_length(count, with_room, without_room)
        integer, intent(in) :: count
        integer(c_int32_t), intent(in) :: with_room, without_room
        integer(c_int8_t) :: kinds(count)
        integer(c_int64_t) :: lefts(count), rights(count), numbers(count)
        integer :: marks(count), codes(count), at
        kinds = razovinto_kind_product
        do at = 1, count
            lefts(at) = at
        end do
        rights = lefts + 1
        numbers = lefts * rights
        marks = 0
        codes = 0
        kinds(count) = razovinto_kind_remainder
        rights(count) = 0
        numbers(count) = 0
        codes(count) = razovinto_divisor_zero
        call row(kinds, lefts, rights, [count, count, count], with_room, numbers, marks, codes)
        call row(kinds, lefts, rights, [count + 1, count + 2, count + 3], with_room, numbers, marks, codes)
        call row(kinds, lefts, rights, [count - 1, count, count], without_room, numbers, marks, codes)
        call row(kinds, lefts, rights, [count, count - 1, count], without_room, numbers, marks, codes)
        call row(kinds, lefts, rights, [count, count, count - 1], without_room, numbers, marks, codes)
    end subroutine

    ! A row into lists of so many numbers, marks and codes, with guards before and after; where the three lists are
    ! equally long also by records.
    subroutine row(kinds, lefts, rights, rooms, refusal, numbers, marks, codes)
        integer(c_int8_t), intent(in) :: kinds(:)
        integer(c_int64_t), intent(in) :: lefts(:), rights(:), numbers(:)
        integer, intent(in) :: rooms(3), marks(:), codes(:)
        integer(c_int32_t), intent(in) :: refusal
        type(razovinto_operation) :: operations(size(kinds))
        integer(c_int64_t) :: own_numbers(0:rooms(1) + 1), expected(0:rooms(1) + 1)
        integer(c_int8_t) :: own_marks(0:rooms(2) + 1), expected_marks(0:rooms(2) + 1)
        integer(c_int8_t) :: own_codes(0:rooms(3) + 1), expected_codes(0:rooms(3) + 1)
        integer(c_int32_t) :: code
        integer :: way, count
        count = merge(size(kinds), 0, refusal == 0)
        expected = 7777777
        expected_marks = 9
        expected_codes = 10
        expected(1:count) = numbers(:count)
        expected_marks(1:count) = int(marks(:count), c_int8_t)
        expected_codes(1:count) = int(codes(:count), c_int8_t)
        do way = 1, merge(2, 1, size(kinds) == size(lefts) .and. size(kinds) == size(rights))
            own_numbers = 7777777
            own_marks = 9
            own_codes = 10
            if (way == 1) then
                code = razovinto_row(kinds, size(kinds, kind=c_size_t), lefts, size(lefts, kind=c_size_t), rights, &
                    size(rights, kind=c_size_t), own_numbers(1:), int(rooms(1), c_size_t), own_marks(1:), &
                    int(rooms(2), c_size_t), own_codes(1:), int(rooms(3), c_size_t))
            else
                operations%kind = kinds
                operations%left = lefts
                operations%right = rights
                code = razovinto_row_of_records(operations, size(operations, kind=c_size_t), own_numbers(1:), &
                    int(rooms(1), c_size_t), own_marks(1:), int(rooms(2), c_size_t), own_codes(1:), &
                    int(rooms(3), c_size_t))
                call expect(all(operations%kind == kinds) .and. all(operations%left == lefts) .and. &
                    all(operations%right == rights), 'the operations of a row stay')
            end if
            call expect(code == refusal, 'what a row returns')
            call expect(all(own_numbers == expected), 'the numbers of a row')
            call expect(all(own_marks == expected_marks), 'the marks of a row')
            call expect(all(own_codes == expected_codes), 'the codes of a row')
        end do
    end subroutine

end program
