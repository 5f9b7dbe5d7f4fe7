! Replays cases for hosts as a host written in Fortran: calls the entry of each and writes its line, in the forms of
! docs/REPLAY.md.
!
!     replay CASES
!
! CASES is a file of tests/second/hosts.py. Every list is lent between guard elements, and every element that must stay
! is looked at. Ends with 1 where an entry does what it must not, and with 2 where CASES can't be read.
program replay
    use, intrinsic :: iso_c_binding, only: c_float, c_int8_t, c_int32_t, c_int64_t, c_size_t
    use, intrinsic :: iso_fortran_env, only: error_unit, iostat_end, output_unit
    use razovinto
    implicit none

    ! How many guard elements there are on each side, and the most that a list of a case has.
    integer, parameter :: guard = 16, longest_list = 4096, longest_field = 8192, longest_run = 65536
    integer(c_int64_t), parameter :: number_before = 7777777
    ! The second is 170, as its binary digits.
    integer(c_int8_t), parameter :: mark_before = 9, byte_before = -86
    ! What three answers have before a call, of which the middle one is lent.
    integer :: i
    integer(c_int64_t), parameter :: junk(150) = [(1000003_c_int64_t * i, i = 1, 150)]

    integer :: cases, case_number
    character(len=:), allocatable :: path
    ! The longest line is that of row 9, with four characters for each byte of its run.
    character(len=4 * longest_run + 100) :: line
    integer :: line_length

    call open_cases()
    case_number = 0
    do while (called())
        write (output_unit, '(a)') line(:line_length)
    end do
    close (cases)

contains

    subroutine halt(what, wrong_input)
        character(len=*), intent(in) :: what
        logical, intent(in) :: wrong_input
        flush (output_unit)
        write (error_unit, '(a, a, a, i0, a, a)') 'replay: ', path, ', case ', case_number, ': ', what
        if (wrong_input) stop 2
        stop 1
    end subroutine

    subroutine open_cases()
        integer :: length, status
        if (command_argument_count() /= 1) then
            write (error_unit, '(a)') 'usage: replay CASES'
            stop 2
        end if
        call get_command_argument(1, length=length)
        allocate (character(len=length) :: path)
        call get_command_argument(1, path)
        open (newunit=cases, file=path, access='stream', form='unformatted', status='old', action='read', iostat=status)
        if (status /= 0) call halt("the file can't be opened", .true.)
    end subroutine

    ! Reading a case.

    subroutine take_bytes(bytes)
        integer(c_int8_t), intent(out) :: bytes(:)
        integer :: status
        if (size(bytes) == 0) return
        read (cases, iostat=status) bytes
        if (status /= 0) call halt('cut short', .true.)
    end subroutine

    ! A number of so many bytes.
    function taken(length) result(number)
        integer, intent(in) :: length
        integer(c_int64_t) :: number
        integer(c_int8_t) :: bytes(8)
        bytes = 0
        call take_bytes(bytes(:length))
        number = razovinto_number(bytes)
    end function

    function taken_count(length, most) result(count)
        integer, intent(in) :: length, most
        integer(c_size_t) :: count
        count = taken(length)
        if (count > most) call halt('a list is too long', .true.)
    end function

    function guard_byte(place) result(byte)
        integer, intent(in) :: place
        integer(c_int8_t) :: byte
        byte = int(modulo(place * 7 + 90, 256) - 128, c_int8_t)
    end function

    ! A list of bytes between guards, read from the file.
    subroutine take_byte_list(count, list)
        integer(c_size_t), intent(in) :: count
        integer(c_int8_t), allocatable, intent(out) :: list(:)
        call lend_bytes(count, 0_c_int8_t, list)
        call take_bytes(list(1:count))
    end subroutine

    ! A list of numbers between guards, read from the file.
    subroutine take_number_list(count, list)
        integer(c_size_t), intent(in) :: count
        integer(c_int64_t), allocatable, intent(out) :: list(:)
        integer(c_int8_t), allocatable :: bytes(:)
        integer :: at
        allocate (bytes(8 * count))
        call take_bytes(bytes)
        call lend_numbers(count, 0_c_int64_t, list)
        do at = 1, int(count)
            list(at) = razovinto_number(bytes(8 * at - 7:8 * at))
        end do
    end subroutine

    ! A list of floats between guards, read from the file by their bits.
    subroutine take_reading_list(count, list)
        integer(c_size_t), intent(in) :: count
        real(c_float), allocatable, intent(out) :: list(:)
        integer(c_int32_t), allocatable :: bits(:)
        integer :: at
        allocate (bits(1 - guard:count + guard))
        do at = lbound(bits, 1), ubound(bits, 1)
            bits(at) = 1000003 * at
        end do
        do at = 1, int(count)
            bits(at) = as_32_digits(taken(4))
        end do
        allocate (list(1 - guard:count + guard))
        list = transfer(bits, list)
    end subroutine

    ! The bits of floats, by which they are compared: a NaN is equal to nothing, and the two zeros are equal.
    pure function bits_of(list) result(bits)
        real(c_float), intent(in) :: list(:)
        integer(c_int32_t) :: bits(size(list))
        bits = transfer(list, bits)
    end function

    ! A list of so many equal bytes between guards.
    subroutine lend_bytes(count, byte, list)
        integer(c_size_t), intent(in) :: count
        integer(c_int8_t), intent(in) :: byte
        integer(c_int8_t), allocatable, intent(out) :: list(:)
        integer :: place
        allocate (list(1 - guard:count + guard))
        do place = lbound(list, 1), ubound(list, 1)
            list(place) = guard_byte(place)
        end do
        list(1:count) = byte
    end subroutine

    subroutine lend_numbers(count, number, list)
        integer(c_size_t), intent(in) :: count
        integer(c_int64_t), intent(in) :: number
        integer(c_int64_t), allocatable, intent(out) :: list(:)
        integer :: place
        allocate (list(1 - guard:count + guard))
        do place = lbound(list, 1), ubound(list, 1)
            list(place) = guard_byte(place)
        end do
        list(1:count) = number
    end subroutine

    ! Looking at what must stay.

    subroutine expect(stayed)
        logical, intent(in) :: stayed
        if (.not. stayed) call halt('an element changed that must stay', .false.)
    end subroutine

    ! Of three answers as numbers only the middle one may have changed.
    subroutine expect_neighbours(answers)
        integer(c_int64_t), intent(in) :: answers(:)
        integer :: length
        length = size(answers) / 3
        call expect(all(answers(:length) == junk(:length)))
        call expect(all(answers(2 * length + 1:) == junk(2 * length + 1:3 * length)))
    end subroutine

    ! Writing a line.

    ! A number from 0 to 2**64 - 1. Its half is never below 0, and gives its last digit and what is before that.
    subroutine put(number)
        integer(c_int64_t), intent(in) :: number
        character(len=20) :: digits
        integer(c_int64_t) :: left, half
        integer :: first
        left = number
        first = 21
        do
            half = shiftr(left, 1)
            first = first - 1
            digits(first:first) = achar(48 + int(2 * mod(half, 5_c_int64_t) + iand(left, 1_c_int64_t)))
            left = half / 5
            if (left == 0) exit
        end do
        if (line_length > 0) then
            line_length = line_length + 1
            line(line_length:line_length) = ' '
        end if
        line(line_length + 1:line_length + 21 - first) = digits(first:)
        line_length = line_length + 21 - first
    end subroutine

    subroutine put_refusal(refusal)
        integer(c_int32_t), intent(in) :: refusal
        call put(int(refusal, c_int64_t))
    end subroutine

    subroutine put_byte(byte)
        integer(c_int8_t), intent(in) :: byte
        call put(iand(int(byte, c_int64_t), 255_c_int64_t))
    end subroutine

    ! Calling the entries.

    ! Reads a case and makes its line; false at the end.
    function called() result(there)
        logical :: there
        integer(c_int8_t) :: row
        integer :: status
        read (cases, iostat=status) row
        there = status /= iostat_end
        if (.not. there) return
        case_number = case_number + 1
        if (status /= 0) call halt("it can't be read", .true.)
        line_length = 0
        select case (row)
        case (1)
            call call_run()
        case (2)
            call call_scan()
        case (3)
            call call_read()
        case (4)
            call call_search()
        case (5)
            call call_operation()
        case (6)
            call call_signed()
        case (7)
            call call_power_fits()
        case (9)
            call call_write()
        case (10)
            call call_level_scan()
        case (11)
            call call_level_to_field()
        case (12)
            call call_row()
        case default
            call halt('no entry for its first byte', .true.)
        end select
    end function

    subroutine call_run()
        integer(c_int64_t) :: width, allowance
        integer(c_size_t) :: kind_count, number_count
        integer(c_int8_t), allocatable :: kinds(:), kinds_before(:)
        integer(c_int64_t), allocatable :: numbers(:), numbers_before(:)
        type(razovinto_run_answer) :: ran(3)
        type(razovinto_shape_answer) :: shape(3)
        integer(c_int32_t) :: refusal, shape_refusal
        integer :: place
        width = taken(1)
        allowance = taken(8)
        kind_count = taken_count(2, longest_list)
        number_count = taken_count(2, longest_list)
        call take_byte_list(kind_count, kinds)
        call take_number_list(number_count, numbers)
        kinds_before = kinds
        numbers_before = numbers
        ran = transfer(junk, ran, 3)
        shape = transfer(junk, shape, 3)
        refusal = razovinto_run(width, kinds(1), kind_count, numbers(1), number_count, allowance, ran(2), &
            razovinto_run_length)
        shape_refusal = razovinto_shape(width, kinds(1), kind_count, numbers(1), number_count, shape(2), &
            razovinto_shape_length)
        call expect(all(kinds == kinds_before) .and. all(numbers == numbers_before))
        call expect_neighbours(transfer(ran, junk))
        call expect_neighbours(transfer(shape, junk))
        call expect_shape(width, refusal, ran(2)%place, shape_refusal, shape(2))
        call put_refusal(refusal)
        call put(ran(2)%place)
        call put(ran(2)%overflowed)
        call put(ran(2)%number)
        call put(ran(2)%steps)
        call put(ran(2)%done)
        call put(ran(2)%phase)
        call put_phase(ran(2))
        do place = 1, razovinto_places
            call put_byte(ran(2)%on_hand_overflowed(place))
            call put(ran(2)%on_hand(place))
        end do
    end subroutine

    ! The shape alone must be refused as the run was.
    subroutine expect_shape(width, run_refusal, run_place, refusal, shape)
        integer(c_int64_t), intent(in) :: width, run_place
        integer(c_int32_t), intent(in) :: run_refusal, refusal
        type(razovinto_shape_answer), intent(in) :: shape
        logical :: same
        if (run_refusal >= razovinto_unknown_width .and. run_refusal <= razovinto_none_left) then
            same = refusal == run_refusal .and. shape%place == run_place .and. shape%limit == 0
        else
            same = refusal == 0 .and. shape%place == 0 .and. shape%limit == shiftr(-1_c_int64_t, 64 - int(width))
        end if
        if (.not. same) call halt("the shape alone is another than the run's", .false.)
    end subroutine

    ! The phase's five numbers; those of the other phases must be 0.
    subroutine put_phase(ran)
        type(razovinto_run_answer), intent(in) :: ran
        integer(c_int64_t) :: own(5), other(5)
        integer :: at
        own = [ran%power%first_overflowed, ran%power%first, ran%power%second_overflowed, ran%power%second, &
            ran%power%exponent]
        other = [ran%logarithm%base, ran%logarithm%left, ran%logarithm%count, 0_c_int64_t, 0_c_int64_t]
        if (ran%phase == razovinto_within_logarithm) call swap(own, other)
        do at = 1, 5
            call put(own(at))
        end do
        if (any(other /= 0)) call halt("another phase's numbers aren't 0", .false.)
    end subroutine

    elemental subroutine swap(one, other)
        integer(c_int64_t), intent(inout) :: one, other
        integer(c_int64_t) :: kept
        kept = one
        one = other
        other = kept
    end subroutine

    subroutine call_scan()
        integer(c_size_t) :: number_count, mark_count
        integer(c_int64_t), allocatable :: numbers(:), numbers_before(:)
        integer(c_int8_t), allocatable :: marks(:), marks_before(:)
        type(razovinto_scan_answer) :: range(3)
        number_count = taken_count(2, longest_list)
        mark_count = taken_count(2, longest_list)
        call take_number_list(number_count, numbers)
        call take_byte_list(mark_count, marks)
        numbers_before = numbers
        marks_before = marks
        range = transfer(junk, range, 3)
        call put_refusal(razovinto_scan(numbers(1), number_count, marks(1), mark_count, range(2), &
            razovinto_scan_length))
        call expect(all(numbers == numbers_before) .and. all(marks == marks_before))
        call expect_neighbours(transfer(range, junk))
        call put(range(2)%place)
        call put(range(2)%least)
        call put(range(2)%greatest)
        call put(range(2)%width)
    end subroutine

    subroutine call_read()
        integer(c_size_t) :: byte_count, number_count, mark_count, count
        integer(c_int8_t), allocatable :: bytes(:), bytes_before(:), marks(:), marks_before(:)
        integer(c_int64_t), allocatable :: numbers(:), numbers_before(:)
        type(razovinto_read_answer) :: read(3)
        integer(c_int32_t) :: refusal, sound
        integer :: at
        byte_count = taken_count(2, longest_list)
        number_count = taken_count(2, longest_list)
        mark_count = taken_count(2, longest_list)
        call take_byte_list(byte_count, bytes)
        call lend_numbers(number_count, number_before, numbers)
        call lend_bytes(mark_count, mark_before, marks)
        bytes_before = bytes
        numbers_before = numbers
        marks_before = marks
        read = transfer(junk, read, 3)
        refusal = razovinto_read(bytes(1), byte_count, numbers(1), number_count, marks(1), mark_count, read(2), &
            razovinto_read_length)
        sound = razovinto_sound(bytes(1), byte_count)
        if (sound /= merge(0_c_int32_t, refusal, refusal == razovinto_list_too_short)) &
            call halt("the block is sound and can't be read, or the other way round", .false.)
        count = read(2)%count
        if (count > min(number_count, mark_count)) call halt('a count above the room that there is', .false.)
        call expect(all(bytes == bytes_before))
        call expect_neighbours(transfer(read, junk))
        call expect(all(numbers(:0) == numbers_before(:0)) .and. all(marks(:0) == marks_before(:0)))
        call expect(all(numbers(count + 1:) == numbers_before(count + 1:)))
        call expect(all(marks(count + 1:) == marks_before(count + 1:)))
        call put_refusal(refusal)
        call put(read(2)%place)
        call put(read(2)%number)
        call put(read(2)%count)
        do at = 1, int(number_count)
            call put(numbers(at))
        end do
        do at = 1, int(mark_count)
            call put_byte(marks(at))
        end do
    end subroutine

    subroutine call_write()
        integer(c_int32_t) :: first, refusal
        integer(c_size_t) :: byte_count, number_count, mark_count, length
        integer(c_int8_t), allocatable :: bytes(:), bytes_before(:), marks(:), marks_before(:)
        integer(c_int64_t), allocatable :: numbers(:), numbers_before(:)
        type(razovinto_write_answer) :: written(3)
        integer :: at
        if (taken(1) /= 1) call halt('no entry has this edition', .true.)
        first = as_32_digits(taken(4))
        number_count = taken_count(2, longest_field)
        mark_count = taken_count(2, longest_field)
        byte_count = taken_count(4, longest_run)
        call take_number_list(number_count, numbers)
        call take_byte_list(mark_count, marks)
        call lend_bytes(byte_count, byte_before, bytes)
        bytes_before = bytes
        numbers_before = numbers
        marks_before = marks
        written = transfer(junk, written, 3)
        refusal = razovinto_write(first, numbers(1), number_count, marks(1), mark_count, bytes(1), byte_count, &
            written(2), razovinto_write_length)
        length = written(2)%length
        if (length > byte_count) call halt('a length above the room that there is', .false.)
        if (refusal == 0 .and. length /= razovinto_written_size(number_count)) &
            call halt("another length than the module says", .false.)
        call expect(all(numbers == numbers_before) .and. all(marks == marks_before))
        call expect_neighbours(transfer(written, junk))
        call expect(all(bytes(:0) == bytes_before(:0)))
        call expect(all(bytes(length + 1:) == bytes_before(length + 1:)))
        call put_refusal(refusal)
        call put(written(2)%place)
        call put(written(2)%length)
        do at = 1, int(byte_count)
            call put_byte(bytes(at))
        end do
    end subroutine

    subroutine call_level_scan()
        integer(c_size_t) :: reading_count, ground_count
        real(c_float), allocatable :: readings(:)
        real(c_float) :: extent(5)
        integer(c_int32_t), allocatable :: readings_before(:)
        integer(c_int8_t), allocatable :: ground(:), ground_before(:)
        integer(c_int32_t) :: extent_before(5), extent_bits(5), refusal
        type(razovinto_level_scan_answer) :: level(3)
        integer(c_size_t) :: room
        integer :: at
        reading_count = taken_count(2, longest_field)
        ground_count = taken_count(2, longest_field)
        call take_reading_list(reading_count, readings)
        call take_byte_list(ground_count, ground)
        readings_before = bits_of(readings)
        ground_before = ground
        extent_before = int(junk(:5), c_int32_t)
        extent = transfer(extent_before, extent)
        level = transfer(junk, level, 3)
        ! Whatever the level is: without room for an answer nothing is written, and without room for the extent place 0.
        refusal = razovinto_level_scan(readings(1), reading_count, ground(1), ground_count, extent(2), &
            razovinto_extent_length, level(2), 0_c_size_t)
        call expect(refusal == razovinto_list_too_short .and. level(2)%place == junk(2))
        do room = 0, razovinto_extent_length - 1
            refusal = razovinto_level_scan(readings(1), reading_count, ground(1), ground_count, extent(2), room, &
                level(2), razovinto_level_scan_length)
            call expect(refusal == razovinto_list_too_short .and. level(2)%place == 0)
            call expect(all(bits_of(extent) == extent_before))
        end do
        ! The extent has room for one float more than it needs in every second case.
        room = razovinto_extent_length + mod(case_number, 2)
        refusal = razovinto_level_scan(readings(1), reading_count, ground(1), ground_count, extent(2), room, level(2), &
            razovinto_level_scan_length)
        call expect(all(bits_of(readings) == readings_before) .and. all(ground == ground_before))
        call expect_neighbours(transfer(level, junk))
        extent_bits = bits_of(extent)
        call expect(extent_bits(1) == extent_before(1) .and. all(extent_bits(4:) == extent_before(4:)))
        if (refusal /= 0) call expect(all(extent_bits == extent_before))
        call put_refusal(refusal)
        call put(level(2)%place)
        do at = 2, 3
            call put(merge(iand(int(extent_bits(at), c_int64_t), 4294967295_c_int64_t), 0_c_int64_t, refusal == 0))
        end do
    end subroutine

    subroutine call_level_to_field()
        integer(c_size_t) :: reading_count, ground_count, number_count, mark_count, count
        real(c_float), allocatable :: readings(:)
        integer(c_int32_t), allocatable :: readings_before(:)
        integer(c_int8_t), allocatable :: ground(:), ground_before(:), marks(:), marks_before(:)
        integer(c_int64_t), allocatable :: numbers(:), numbers_before(:)
        type(razovinto_level_to_field_answer) :: field(3)
        integer(c_int32_t) :: refusal
        integer :: at
        reading_count = taken_count(2, longest_field)
        ground_count = taken_count(2, longest_field)
        number_count = taken_count(2, longest_field)
        mark_count = taken_count(2, longest_field)
        call take_reading_list(reading_count, readings)
        call take_byte_list(ground_count, ground)
        call lend_numbers(number_count, number_before, numbers)
        call lend_bytes(mark_count, byte_before, marks)
        readings_before = bits_of(readings)
        ground_before = ground
        numbers_before = numbers
        marks_before = marks
        field = transfer(junk, field, 3)
        refusal = razovinto_level_to_field(readings(1), reading_count, ground(1), ground_count, numbers(1), &
            number_count, marks(1), mark_count, field(2), 0_c_size_t)
        call expect(refusal == razovinto_list_too_short .and. field(2)%place == junk(2))
        call expect(all(numbers == numbers_before) .and. all(marks == marks_before))
        refusal = razovinto_level_to_field(readings(1), reading_count, ground(1), ground_count, numbers(1), &
            number_count, marks(1), mark_count, field(2), razovinto_level_to_field_length)
        count = merge(reading_count, 0_c_size_t, refusal == 0)
        if (count > min(number_count, mark_count)) call halt('a level that there is no room for', .false.)
        call expect(all(bits_of(readings) == readings_before) .and. all(ground == ground_before))
        call expect_neighbours(transfer(field, junk))
        call expect(all(numbers(:0) == numbers_before(:0)) .and. all(marks(:0) == marks_before(:0)))
        call expect(all(numbers(count + 1:) == numbers_before(count + 1:)))
        call expect(all(marks(count + 1:) == marks_before(count + 1:)))
        call put_refusal(refusal)
        call put(field(2)%place)
        do at = 1, int(number_count)
            call put(numbers(at))
        end do
        do at = 1, int(mark_count)
            call put_byte(marks(at))
        end do
    end subroutine

    subroutine call_row()
        integer(c_size_t) :: kind_count, left_count, right_count, number_count, mark_count, code_count, count
        integer(c_int8_t), allocatable :: kinds(:), marks(:), codes(:)
        integer(c_int8_t), allocatable :: kinds_before(:), marks_before(:), codes_before(:)
        integer(c_int64_t), allocatable :: lefts(:), rights(:), numbers(:)
        integer(c_int64_t), allocatable :: lefts_before(:), rights_before(:), numbers_before(:)
        integer(c_int32_t) :: refusal
        integer :: at
        kind_count = taken_count(2, longest_field)
        left_count = taken_count(2, longest_field)
        right_count = taken_count(2, longest_field)
        number_count = taken_count(2, longest_field)
        mark_count = taken_count(2, longest_field)
        code_count = taken_count(2, longest_field)
        call take_byte_list(kind_count, kinds)
        call take_number_list(left_count, lefts)
        call take_number_list(right_count, rights)
        call lend_numbers(number_count, number_before, numbers)
        call lend_bytes(mark_count, byte_before, marks)
        call lend_bytes(code_count, byte_before, codes)
        kinds_before = kinds
        lefts_before = lefts
        rights_before = rights
        numbers_before = numbers
        marks_before = marks
        codes_before = codes
        refusal = razovinto_row(kinds(1), kind_count, lefts(1), left_count, rights(1), right_count, numbers(1), &
            number_count, marks(1), mark_count, codes(1), code_count)
        call expect(all(kinds == kinds_before) .and. all(lefts == lefts_before) .and. all(rights == rights_before))
        count = merge(kind_count, 0_c_size_t, refusal == 0)
        if (count > min(number_count, mark_count, code_count)) call halt('a row that there is no room for', .false.)
        call expect(all(numbers(:0) == numbers_before(:0)) .and. all(numbers(count + 1:) == numbers_before(count + 1:)))
        call expect(all(marks(:0) == marks_before(:0)) .and. all(marks(count + 1:) == marks_before(count + 1:)))
        call expect(all(codes(:0) == codes_before(:0)) .and. all(codes(count + 1:) == codes_before(count + 1:)))
        if (kind_count == left_count .and. kind_count == right_count) then
            call call_row_of_records(kinds, lefts, rights, refusal, numbers_before, marks_before, codes_before)
            if (any(numbers_before /= numbers) .or. any(marks_before /= marks) .or. any(codes_before /= codes)) &
                call halt('records give other lists than plain lists', .false.)
        end if
        call put_refusal(refusal)
        call put(0_c_int64_t)
        do at = 1, int(number_count)
            call put(numbers(at))
        end do
        do at = 1, int(mark_count)
            call put_byte(marks(at))
        end do
        do at = 1, int(code_count)
            call put_byte(codes(at))
        end do
    end subroutine

    ! The same operations as records, guards too, into lists as they were before the call. It must be refused as the row
    ! of plain lists was.
    subroutine call_row_of_records(kinds, lefts, rights, refusal, numbers, marks, codes)
        integer(c_int8_t), allocatable, intent(in) :: kinds(:)
        integer(c_int64_t), allocatable, intent(in) :: lefts(:), rights(:)
        integer(c_int32_t), intent(in) :: refusal
        integer(c_int64_t), allocatable, intent(inout) :: numbers(:)
        integer(c_int8_t), allocatable, intent(inout) :: marks(:), codes(:)
        type(razovinto_operation), allocatable :: operations(:)
        integer(c_int32_t) :: code
        allocate (operations(lbound(kinds, 1):ubound(kinds, 1)))
        operations%kind = kinds
        operations%left = lefts
        operations%right = rights
        code = razovinto_row_of_records(operations(1), without_guards(size(operations)), numbers(1), &
            without_guards(size(numbers)), marks(1), without_guards(size(marks)), codes(1), without_guards(size(codes)))
        if (code /= refusal) call halt('records are refused otherwise than plain lists', .false.)
        call expect(all(operations%kind == kinds) .and. all(operations%left == lefts) .and. &
            all(operations%right == rights))
    end subroutine

    ! How many elements of a list are lent.
    pure function without_guards(all) result(count)
        integer, intent(in) :: all
        integer(c_size_t) :: count
        count = all - 2 * guard
    end function

    ! A number below 2**32 as an integer that has its binary digits.
    pure function as_32_digits(number) result(digits)
        integer(c_int64_t), intent(in) :: number
        integer(c_int32_t) :: digits
        digits = int(merge(number - 4294967296_c_int64_t, number, number > 2147483647_c_int64_t), c_int32_t)
    end function

    subroutine call_search()
        integer(c_size_t) :: byte_count
        integer(c_int8_t), allocatable :: bytes(:), bytes_before(:)
        type(razovinto_search_answer) :: found(3)
        byte_count = taken_count(4, longest_run)
        call take_byte_list(byte_count, bytes)
        bytes_before = bytes
        found = transfer(junk, found, 3)
        call put_refusal(razovinto_search(bytes(1), byte_count, found(2), razovinto_search_length))
        call expect(all(bytes == bytes_before))
        call expect_neighbours(transfer(found, junk))
        call put(found(2)%place)
        call put(found(2)%found)
        call put(found(2)%position)
        call put(found(2)%within)
    end subroutine

    subroutine call_operation()
        integer(c_int64_t) :: kind, left, right
        integer(c_int8_t), allocatable :: bytes(:), before(:)
        integer(c_int32_t) :: refusal
        if (taken(1) /= 64) call halt('no entry has this width', .true.)
        kind = taken(1)
        if (taken(1) /= 0) call halt('no entry takes an overflowed operand', .true.)
        left = taken(8)
        if (taken(1) /= 0) call halt('no entry takes an overflowed operand', .true.)
        right = taken(8)
        call lend_bytes(razovinto_result_size, 77_c_int8_t, bytes)
        before = bytes
        select case (kind)
        case (int(razovinto_kind_sum))
            refusal = razovinto_sum(left, right, bytes(1), razovinto_result_size)
        case (int(razovinto_kind_product))
            refusal = razovinto_product(left, right, bytes(1), razovinto_result_size)
        case (int(razovinto_kind_quotient))
            refusal = razovinto_quotient(left, right, bytes(1), razovinto_result_size)
        case (int(razovinto_kind_remainder))
            refusal = razovinto_remainder(left, right, bytes(1), razovinto_result_size)
        case (int(razovinto_kind_power))
            refusal = razovinto_power(left, right, bytes(1), razovinto_result_size)
        case (int(razovinto_kind_logarithm))
            refusal = razovinto_logarithm(left, right, bytes(1), razovinto_result_size)
        case default
            call halt('no entry has this kind', .true.)
        end select
        call expect(all(bytes(:0) == before(:0)))
        call expect(all(bytes(razovinto_result_size + 1:) == before(razovinto_result_size + 1:)))
        if (refusal /= 0) call expect(all(bytes == before))
        call put_refusal(refusal)
        call put(0_c_int64_t)
        if (refusal == 0) then
            call put(merge(1_c_int64_t, 0_c_int64_t, razovinto_overflowed(bytes(1))))
            call put(razovinto_number(bytes(1)))
        else
            call put(0_c_int64_t)
            call put(0_c_int64_t)
        end if
    end subroutine

    subroutine call_signed()
        integer(c_int64_t) :: which, left, right, number
        integer(c_int64_t), allocatable :: numbers(:), before(:)
        integer(c_int32_t) :: refusal
        if (taken(1) /= 64) call halt('no entry has this width', .true.)
        which = taken(1)
        left = taken(8)
        right = taken(8)
        call lend_numbers(1_c_size_t, number_before, numbers)
        before = numbers
        select case (which)
        case (0)
            refusal = razovinto_signed_quotient(left, right, numbers(1), 1_c_size_t)
        case (1)
            refusal = razovinto_signed_remainder(left, right, numbers(1), 1_c_size_t)
        case default
            call halt('neither quotient nor remainder', .true.)
        end select
        call expect(all(numbers(:0) == before(:0)) .and. all(numbers(2:) == before(2:)))
        if (refusal /= 0) call expect(numbers(1) == before(1))
        number = merge(numbers(1), 0_c_int64_t, refusal == 0)
        call put_refusal(refusal)
        call put(0_c_int64_t)
        call put(merge(1_c_int64_t, 0_c_int64_t, number < 0))
        ! The smallest number has no negative; its digits are those of its size already.
        if (number < 0 .and. number /= ishft(1_c_int64_t, 63)) number = -number
        call put(number)
    end subroutine

    subroutine call_power_fits()
        integer(c_int64_t) :: base, exponent
        base = taken(8)
        exponent = taken(8)
        call put_refusal(razovinto_power_fits(base, exponent))
    end subroutine

end program
