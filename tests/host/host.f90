! The six operations as a host written in Fortran sees them.
!
!     host PAIRS
!
! PAIRS is a file of tests/second/pairs.py. Ends with 1 at the first difference.
program host
    use, intrinsic :: iso_c_binding, only: c_int8_t, c_int32_t, c_int64_t, c_size_t
    use razovinto
    implicit none

    ! In the order of the recipe's kinds.
    character(len=9), parameter :: names(6) = &
        ['sum      ', 'product  ', 'quotient ', 'remainder', 'power    ', 'logarithm']
    ! Guard bytes on each side of the longest lent part.
    integer, parameter :: guard = 24, longest = 64
    ! The largest number, 2**64 - 1, and 2**63, as their binary digits.
    integer(c_int64_t), parameter :: most = -1_c_int64_t, half = ishft(1_c_int64_t, 63)
    character(len=4096) :: path

    if (command_argument_count() /= 1) then
        print '(a)', 'usage: host PAIRS'
        stop 2
    end if
    call get_command_argument(1, path)
    call check_limits()
    call check_pairs(trim(path))

contains

    function called(kind, left, right, bytes, length) result(refusal)
        integer, intent(in) :: kind
        integer(c_int64_t), intent(in) :: left, right
        integer(c_int8_t), intent(inout) :: bytes(*)
        integer(c_size_t), intent(in) :: length
        integer(c_int32_t) :: refusal
        select case (kind)
        case (1)
            refusal = razovinto_sum(left, right, bytes, length)
        case (2)
            refusal = razovinto_product(left, right, bytes, length)
        case (3)
            refusal = razovinto_quotient(left, right, bytes, length)
        case (4)
            refusal = razovinto_remainder(left, right, bytes, length)
        case (5)
            refusal = razovinto_power(left, right, bytes, length)
        case default
            refusal = razovinto_logarithm(left, right, bytes, length)
        end select
    end function

    subroutine fail(what, kind, left, right, length)
        character(len=*), intent(in) :: what
        integer, intent(in) :: kind
        integer(c_int64_t), intent(in) :: left, right
        integer(c_size_t), intent(in) :: length
        print '(a, a, a, z16.16, a, z16.16, a, i0, a, a)', 'host: ', trim(names(kind)), ' of hexadecimal ', left, &
            ' and ', right, ', ', length, ' bytes lent: ', what
        stop 1
    end subroutine

    ! A byte that is there before the call; each place has its own.
    pure function before(place) result(byte)
        integer, intent(in) :: place
        integer(c_int8_t) :: byte
        byte = int(modulo(place * 7 + 90, 256) - 128, c_int8_t)
    end function

    ! The byte that must stand at a place, from 0, of the lent bytes after the call.
    pure function written(number, mark, place) result(byte)
        integer(c_int64_t), intent(in) :: number
        integer, intent(in) :: mark, place
        integer(c_int8_t) :: byte
        integer :: digits
        digits = 0
        if (place < 8) digits = int(ibits(number, 8 * place, 8))
        if (place == 8) digits = mark
        if (digits > 127) digits = digits - 256
        byte = int(digits, c_int8_t)
    end function

    ! Calls an entry with `length` bytes that begin `shift` bytes off, between guard bytes, and looks at the returned
    ! number and at every byte.
    subroutine check(kind, left, right, length, shift, refusal, number, mark)
        integer, intent(in) :: kind, shift, refusal, mark
        integer(c_int64_t), intent(in) :: left, right, number
        integer(c_size_t), intent(in) :: length
        integer(c_int8_t) :: bytes(guard + 8 + longest + guard)
        integer :: start, i
        start = guard + shift + 1
        bytes = [(before(i), i = 1, size(bytes))]
        if (called(kind, left, right, bytes(start), length) /= refusal) &
            call fail('not the number that it must give', kind, left, right, length)
        do i = 1, size(bytes)
            if (refusal == 0 .and. i >= start .and. i < start + razovinto_result_size) then
                if (bytes(i) /= written(number, mark, i - start)) &
                    call fail('a wrong byte was written', kind, left, right, length)
            else if (bytes(i) /= before(i)) then
                call fail('a byte changed that must stay', kind, left, right, length)
            end if
        end do
        if (refusal /= 0) return
        if (razovinto_number(bytes(start)) /= number .or. (razovinto_overflowed(bytes(start)) .neqv. mark == 1)) &
            call fail("the module's own functions read something else", kind, left, right, length)
    end subroutine

    ! One call at every length: refused with 19 below sixteen bytes, and as it must be from there on.
    subroutine at_limit(kind, left, right, refusal, number, mark)
        integer, intent(in) :: kind, refusal, mark
        integer(c_int64_t), intent(in) :: left, right, number
        integer(c_size_t) :: length
        integer :: shift
        do shift = 0, 7
            do length = 0, 40
                if (length < razovinto_result_size) then
                    call check(kind, left, right, length, shift, int(razovinto_result_too_short), 0_c_int64_t, 0)
                else
                    call check(kind, left, right, length, shift, refusal, number, mark)
                end if
            end do
        end do
    end subroutine

    subroutine check_limits()
        integer(c_int64_t), parameter :: none = 0, one = 1, two = 2, three = 3, seven = 7
        integer(c_int64_t), parameter :: four_giga = ishft(one, 32)
        ! 3**40, from 2**63 on, so that its digits are those of a number below 0.
        integer(c_int64_t), parameter :: forty = int(z'A8B8B452291FE821', c_int64_t)
        call at_limit(1, none, none, 0, none, 0)
        call at_limit(1, most, none, 0, most, 0)
        call at_limit(1, most - 1, one, 0, most, 0)
        call at_limit(1, most, one, 0, none, 1)
        call at_limit(1, half, half, 0, none, 1)
        call at_limit(2, most, none, 0, none, 0)
        call at_limit(2, none, most, 0, none, 0)
        call at_limit(2, most, one, 0, most, 0)
        call at_limit(2, four_giga - 1, four_giga + 1, 0, most, 0)
        call at_limit(2, four_giga, four_giga, 0, none, 1)
        call at_limit(2, most, most, 0, none, 1)
        call at_limit(3, most, one, 0, most, 0)
        call at_limit(3, most - 1, most, 0, none, 0)
        call at_limit(3, most, two, 0, half - 1, 0)
        call at_limit(3, seven, none, int(razovinto_divisor_zero), none, 0)
        call at_limit(4, most - 1, most, 0, most - 1, 0)
        call at_limit(4, most, most, 0, none, 0)
        call at_limit(4, seven, two, 0, one, 0)
        call at_limit(4, none, none, int(razovinto_divisor_zero), none, 0)
        call at_limit(5, none, none, 0, one, 0)
        call at_limit(5, most, one, 0, most, 0)
        call at_limit(5, none, most, 0, none, 0)
        call at_limit(5, one, most, 0, one, 0)
        call at_limit(5, two, 63_c_int64_t, 0, half, 0)
        call at_limit(5, two, 64_c_int64_t, 0, none, 1)
        call at_limit(5, three, 40_c_int64_t, 0, forty, 0)
        call at_limit(5, three, 41_c_int64_t, 0, none, 1)
        call at_limit(6, two, none, 0, none, 0)
        call at_limit(6, two, most, 0, 63_c_int64_t, 0)
        call at_limit(6, three, forty, 0, 40_c_int64_t, 0)
        call at_limit(6, three, forty - 1, 0, 39_c_int64_t, 0)
        call at_limit(6, most, most, 0, one, 0)
        call at_limit(6, one, seven, int(razovinto_base_below_two), none, 0)
        call at_limit(6, none, none, int(razovinto_base_below_two), none, 0)
        print '(a)', 'host: the limits agree, at each length and alignment'
    end subroutine

    subroutine check_pairs(name)
        character(len=*), intent(in) :: name
        integer :: file, status, count, i, kind, refusal, mark
        integer(c_int64_t) :: left, right, number
        open (newunit=file, file=name, status='old', action='read', iostat=status)
        if (status == 0) read (file, *, iostat=status) count
        if (status /= 0) then
            print '(a, a, a)', 'host: ', name, " can't be read"
            stop 1
        end if
        do i = 0, count - 1
            read (file, '(i1, 1x, z16, 1x, z16, 1x, i2, 1x, z16, 1x, i1)', iostat=status) &
                kind, left, right, refusal, number, mark
            if (status /= 0) then
                print '(a, a, a, i0, a)', 'host: ', name, ', pair ', i + 1, " can't be read"
                stop 1
            end if
            call check(kind, left, right, razovinto_result_size + mod(i, 9), mod(i, 8), refusal, number, mark)
        end do
        close (file)
        print '(a, i0, a)', 'host: ', count, ' pairs agree'
    end subroutine

end program
