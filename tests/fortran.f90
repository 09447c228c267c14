! The cases of crates/cases/data through the Fortran module.
!
!   fortran DATA ANSWERS       writes to ANSWERS what crates/cases/stdout has for the exported calls. A case that cannot be said in
!                              Fortran, such as a table with fewer entries than its n asks for, has the line "-" instead.
!   fortran --by-hand VERSION  compares the version, the texts of all refusals, the room for each stored form and for Newick text, term
!                              reports, levels, and what only Fortran can say: tables by rows, tables of another shape, teams of rank 3,
!                              sections, integers of either kind, events that no byte holds, and text in character variables.
!
! What is wrong is printed; then the status is 1.

! Numbers from the lines of a case, and answers to the lines of the other file. All are unsigned and stand as their bits.
module case_text
    use, intrinsic :: iso_fortran_env, only: error_unit, int8, int32, int64
    use kemotuiki, only: kemotuiki_answer, kemotuiki_images
    implicit none
    private
    public :: number, small_number, fits, slice8, slice32, slice64, filled32, filled64, read_stream, slice_text, table, read_table
    public :: read_team, read_rows, can_be_said
    public :: put_answer, put_values, put, put_rows, fault, faults, answers, run, note_far_sides

    integer, parameter :: line_room = 150000
    character(line_room) :: line
    character(:), allocatable :: call_name
    integer :: at, answers, faults = 0
    logical :: can_be_said
    ! Of the call that is run: the numbers that were answered, and the accepted cases of 64 images with a negative far side.
    logical :: answered(0:22)
    integer :: negative

    abstract interface
        subroutine one_case()
        end subroutine
    end interface

    interface put
        procedure put8, put32, put64, put_text
    end interface

contains

    subroutine fault(what)
        character(*), intent(in) :: what
        write (error_unit, '(3a)') call_name, ': ', what
        faults = faults + 1
    end subroutine

    ! ---- a case ----

    ! The next number of the line. It is kept as two halves, so that nothing overflows.
    function number() result(bits)
        integer(int64) :: bits, high, low
        integer :: start, digit
        high = 0
        low = 0
        start = at
        do while (at < line_room)
            digit = index('0123456789', line(at:at)) - 1
            if (digit < 0) exit
            low = 10 * low + digit
            high = 10 * high + ishft(low, -32)
            low = ibits(low, 0, 32)
            at = at + 1
        end do
        if (at == start .or. at == line_room .or. ishft(high, -32) /= 0) error stop 'a bad line, or one that is too long'
        at = at + 1
        bits = ior(ishft(high, 32), low)
    end function

    ! The number that this many bits are, when the highest of them is a sign.
    elemental function signed(bits, width) result(value)
        integer(int64), intent(in) :: bits
        integer, intent(in) :: width
        integer(int64) :: value
        value = bits
        if (btest(bits, width - 1)) value = bits - 2_int64**width
    end function

    pure function fits(bits)
        integer(int64), intent(in) :: bits
        logical :: fits
        fits = bits >= -huge(0) .and. bits <= huge(0)
    end function

    ! A number that is a default integer in Fortran. 2^64 - 1 is -1.
    function small_number() result(value)
        integer :: value
        integer(int64) :: bits
        bits = number()
        can_be_said = can_be_said .and. fits(bits)
        value = 0
        if (fits(bits)) value = int(bits)
    end function

    function slice64() result(elements)
        integer(int64), allocatable :: elements(:)
        integer :: k
        allocate (elements(number()))
        do k = 1, size(elements)
            elements(k) = number()
        end do
    end function

    function slice32() result(elements)
        integer(int32), allocatable :: elements(:)
        elements = int(signed(slice64(), 32), int32)
    end function

    function slice8() result(elements)
        integer(int8), allocatable :: elements(:)
        elements = int(signed(slice64(), 8), int8)
    end function

    ! A slice that stands as its length and what all its places hold.
    function filled64() result(elements)
        integer(int64), allocatable :: elements(:)
        allocate (elements(number()))
        elements = number()
    end function

    function filled32() result(elements)
        integer(int32), allocatable :: elements(:)
        elements = int(signed(filled64(), 32), int32)
    end function

    ! How many bytes of the line before are kept, and pieces, each so many times, behind them.
    subroutine read_stream(bytes)
        integer(int8), allocatable, intent(inout) :: bytes(:)
        integer(int8), allocatable :: piece(:)
        integer(int64) :: pieces, times, j
        if (.not. allocated(bytes)) allocate (bytes(0))
        bytes = bytes(:number())
        do pieces = number(), 1, -1
            times = number()
            piece = slice8()
            bytes = [bytes, (piece, j = 1, times)]
        end do
    end subroutine

    ! The bytes of a slice as text.
    function slice_text() result(text)
        character(:), allocatable :: text
        integer(int64), allocatable :: bytes(:)
        integer :: k
        bytes = slice64()
        allocate (character(size(bytes)) :: text)
        do k = 1, size(bytes)
            text(k:k) = char(int(bytes(k)))
        end do
    end function

    ! A table of so many rows from its entries, row by row.
    pure function table(rows, entries) result(t)
        integer, intent(in) :: rows
        integer(int32), intent(in) :: entries(:)
        integer(int32), allocatable :: t(:, :)
        t = transpose(reshape(entries, [size(entries) / max(rows, 1), rows]))
    end function

    ! n and a cost table. n is the table's rows in Fortran, so that the entries have to fill them.
    subroutine read_table(n, t)
        integer, intent(out) :: n
        integer(int32), allocatable, intent(out) :: t(:, :)
        integer(int32), allocatable :: entries(:)
        n = small_number()
        entries = slice32()
        can_be_said = can_be_said .and. n >= 0
        if (can_be_said) can_be_said = size(entries) == n * (size(entries) / max(n, 1))
        if (can_be_said) t = table(n, entries)
    end subroutine

    ! n, the number of tables and the joined tables. Both numbers are extents in Fortran, so that the entries have to fill them.
    subroutine read_team(n, tables)
        integer, intent(out) :: n
        integer(int32), allocatable, intent(out) :: tables(:, :, :)
        integer(int32), allocatable :: entries(:)
        integer :: number_of_tables, part, k
        n = small_number()
        number_of_tables = small_number()
        entries = slice32()
        can_be_said = can_be_said .and. n >= 0 .and. number_of_tables >= 0
        if (.not. can_be_said) return
        part = size(entries) / max(number_of_tables, 1)
        part = part - mod(part, max(n, 1))
        can_be_said = int(part, int64) * number_of_tables == size(entries) .and. (n > 0 .or. part == 0)
        if (.not. can_be_said) return
        allocate (tables(n, part / max(n, 1), number_of_tables))
        do k = 1, merge(number_of_tables, 0, part > 0)
            tables(:, :, k) = table(n, entries(part * (k - 1) + 1:part * k))
        end do
    end subroutine

    ! n and a link table. The row count is that of the far sides in Fortran.
    subroutine read_rows(n, fars, costs)
        integer, intent(out) :: n
        integer(int64), allocatable, intent(out) :: fars(:)
        integer(int32), allocatable, intent(out) :: costs(:)
        integer(int64) :: count
        n = small_number()
        count = number()
        fars = slice64()
        costs = slice32()
        can_be_said = can_be_said .and. count == size(fars)
    end subroutine

    ! ---- its answer ----

    ! A number without a sign.
    subroutine put_number(bits)
        integer(int64), intent(in) :: bits
        integer(int64) :: half
        half = ishft(bits, -1)
        if (bits >= 0) write (answers, '(1x, i0)', advance='no') bits
        if (bits < 0) write (answers, '(1x, i0, i0)', advance='no') half / 5, 2 * mod(half, 5_int64) + ibits(bits, 0, 1)
    end subroutine

    subroutine put64(elements)
        integer(int64), intent(in) :: elements(:)
        integer :: k
        call put_number(size(elements, kind=int64))
        do k = 1, size(elements)
            call put_number(elements(k))
        end do
    end subroutine

    subroutine put32(elements)
        integer(int32), intent(in) :: elements(:)
        call put64(ibits(int(elements, int64), 0, 32))
    end subroutine

    subroutine put8(elements)
        integer(int8), intent(in) :: elements(:)
        call put64(ibits(int(elements, int64), 0, 8))
    end subroutine

    subroutine put_text(text)
        character(*), intent(in) :: text
        integer :: k
        call put64([(int(ichar(text(k:k)), int64), k = 1, len(text))])
    end subroutine

    ! The number, then the values of an accepted call, or the refusal's places, its table before them if the call takes several.
    subroutine put_answer(r, values, tables)
        class(kemotuiki_answer), intent(in) :: r
        integer(int64), intent(in) :: values(:)
        logical, intent(in), optional :: tables
        integer(int64) :: places(5)
        integer :: k, first
        places = [r%table, r%a, r%b, r%c, r%d]
        first = 2
        if (present(tables)) first = 1
        write (answers, '(i0)', advance='no') r%number
        if (r%accepted()) then
            call put_values(values)
            if (any(places /= 0)) call fault('places beside an accepted answer')
        else
            do k = first, 5
                call put_number(places(k))
            end do
            if (any(values /= 0)) call fault('a value beside a refusal')
            if (any(places(:first - 1) /= 0)) call fault("a table's number from a call with one table")
        end if
        answered(r%number) = .true.
    end subroutine

    subroutine put_values(values)
        integer(int64), intent(in) :: values(:)
        integer :: k
        do k = 1, size(values)
            write (answers, '(1x, i0)', advance='no') values(k)
        end do
    end subroutine

    ! The lent rows of a call that wrote so many, over n images, as it left them.
    subroutine put_rows(r, n, rows, fars, costs)
        class(kemotuiki_answer), intent(in) :: r
        integer, intent(in) :: n, rows
        integer(int64), intent(in) :: fars(:)
        integer(int32), intent(in) :: costs(:)
        call put64(fars)
        call put32(costs)
        call note_far_sides(r, n, fars(:rows))
    end subroutine

    subroutine note_far_sides(r, n, fars)
        class(kemotuiki_answer), intent(in) :: r
        integer, intent(in) :: n
        integer(int64), intent(in) :: fars(:)
        if (r%accepted() .and. n == kemotuiki_images .and. any(fars < 0)) negative = negative + 1
    end subroutine

    ! ---- all cases of a call ----

    ! Some case has to be accepted, and each of these refusals has to be met. A call for which far_sides is given has to be tried
    ! with those that are negative.
    subroutine run(name, do_case, folder, refusals, far_sides)
        character(*), intent(in) :: name, folder
        procedure(one_case) :: do_case
        integer, intent(in) :: refusals(:)
        logical, intent(in), optional :: far_sides
        logical :: listed(0:22)
        integer :: cases, status
        call_name = name
        answered = .false.
        negative = 0
        open (newunit=cases, file=folder // '/' // name // '.txt', status='old', action='read')
        write (answers, '(a)') name
        do
            read (cases, '(a)', iostat=status) line
            if (status /= 0) exit
            at = 1
            can_be_said = .true.
            call do_case()
            if (.not. can_be_said) write (answers, '(a)', advance='no') '-'
            write (answers, '()')
        end do
        close (cases)
        listed = .false.
        listed(0) = .true.
        listed(refusals) = .true.
        if (any(listed .and. .not. answered)) call fault('not every number that it answers was met')
        if (any(answered .and. .not. listed)) call fault('a refusal that it does not have')
        if (present(far_sides) .and. negative == 0) call fault('no accepted case of 64 images with a negative far side')
    end subroutine

end module

! One subroutine a call: the arguments from the line, then the answer and every lent output as it was left. A case of the exact reading
! is read by both its engines, what a conversion wrote is converted once more, a Newick text is read and written again, what a replay
! leaves is compared with the exact reading of the images that are left, and groups with the exact reading of the same table.
module case_calls
    use, intrinsic :: iso_fortran_env, only: int8, int32, int64
    use kemotuiki
    use case_text
    implicit none
    private
    public :: run_all

    abstract interface
        function engine(t, fars, costs) result(r)
            import
            integer(int32), intent(in), contiguous :: t(:, :)
            integer(int64), intent(inout), contiguous :: fars(:)
            integer(int32), intent(inout), contiguous :: costs(:)
            type(kemotuiki_rows_answer) :: r
        end function
        function converter(form, bytes, out) result(r)
            import
            integer, intent(in) :: form
            integer(int8), intent(in), contiguous :: bytes(:)
            integer(int8), intent(inout), contiguous :: out(:)
            type(kemotuiki_bytes_answer) :: r
        end function
    end interface

contains

    subroutine run_all(folder)
        character(*), intent(in) :: folder
        call run('index', do_index, folder, [1, 2, 4, 5, 6, 12, 20], far_sides=.true.)
        call run('order', do_order, folder, [1, 2, 3, 4, 5, 6, 8, 20])
        call run('measured', do_measured, folder, [1, 2, 3, 4, 5, 6, 20], far_sides=.true.)
        call run('exact', do_exact, folder, [1, 2, 3, 4, 5, 6, 7, 20], far_sides=.true.)
        call run('path', do_path, folder, [1, 2, 8, 10, 12, 13], far_sides=.true.)
        call run('upper_rows', do_upper_rows, folder, [1, 2, 3, 10, 12, 13], far_sides=.true.)
        call run('route', do_route, folder, [1, 2, 3, 8, 10, 12, 13], far_sides=.true.)
        call run('compare', do_compare, folder, [1, 2, 4, 5, 6, 7, 20])
        call run('write_costs', do_write_costs, folder, [1, 2, 3, 4, 5, 6, 17, 20])
        call run('read_costs', do_read_costs, folder, [1, 3, 4, 9, 11, 20])
        call run('write_links', do_write_links, folder, [1, 2, 3, 10, 12, 13, 17], far_sides=.true.)
        call run('read_links', do_read_links, folder, [1, 3, 9, 10, 11, 12, 13], far_sides=.true.)
        call run('write_batch', do_write_batch, folder, [1, 2, 3, 10, 12, 13, 17])
        call run('choice', do_choice, folder, [1, 9, 10, 11, 12, 13, 14, 15])
        call run('consensus', do_consensus, folder, [1, 2, 3, 4, 5, 6, 7, 16, 20], far_sides=.true.)
        call run('exact_grafted', do_exact_grafted, folder, [1, 2, 3, 4, 5, 6, 7, 20], far_sides=.true.)
        call run('convert_costs', do_convert_costs, folder, [1, 3, 4, 9, 11, 17, 20])
        call run('convert_links', do_convert_links, folder, [1, 3, 9, 10, 11, 12, 13, 17])
        call run('write_newick', do_write_newick, folder, [1, 2, 3, 10, 12, 13], far_sides=.true.)
        call run('read_newick', do_read_newick, folder, [1, 3, 12, 13, 18, 22], far_sides=.true.)
        call run('replay', do_replay, folder, [1, 2, 3, 4, 5, 6, 7, 8, 20], far_sides=.true.)
        call run('report', do_report, folder, [1, 3, 4, 9, 11, 15, 19, 20], far_sides=.true.)
        call run('levels', do_levels, folder, [1, 2, 3, 4, 5, 6, 20, 21], far_sides=.true.)
    end subroutine

    ! With a far side that is a default integer, where it can be one.
    subroutine do_index()
        type(kemotuiki_index_answer) :: r
        integer(int32), allocatable :: t(:, :)
        integer(int64) :: s
        integer :: n
        call read_table(n, t)
        s = number()
        if (.not. can_be_said) return
        if (fits(s)) then
            r = kemotuiki_index(t, int(s))
        else
            r = kemotuiki_index(t, s)
        end if
        call put_answer(r, [r%signed_index])
        call note_far_sides(r, n, [s])
    end subroutine

    subroutine do_order()
        type(kemotuiki_order_answer) :: r
        integer(int32), allocatable :: t(:, :), out(:)
        integer :: n, first, last
        call read_table(n, t)
        first = small_number()
        last = small_number()
        out = slice32()
        if (.not. can_be_said) return
        r = kemotuiki_order(t, first, last, out)
        call put_answer(r, [integer(int64) :: r%images])
        call put(out)
    end subroutine

    subroutine do_measured()
        integer(int32), allocatable :: t(:, :), costs(:)
        integer(int64), allocatable :: fars(:)
        integer :: n
        call read_reading(n, t, fars, costs)
        if (can_be_said) call put_reading(kemotuiki_measured(t, fars, costs), n, fars, costs)
    end subroutine

    subroutine do_exact()
        call both_engines(kemotuiki_exact, kemotuiki_exact_grafted)
    end subroutine

    subroutine do_exact_grafted()
        call both_engines(kemotuiki_exact_grafted, kemotuiki_exact)
    end subroutine

    ! Both engines of the exact reading, each with places of its own: they answer and leave the same. What is put is of the first.
    subroutine both_engines(asked, other)
        procedure(engine) :: asked, other
        type(kemotuiki_rows_answer) :: r, again
        integer(int32), allocatable :: t(:, :), costs(:), costs_again(:)
        integer(int64), allocatable :: fars(:), fars_again(:)
        integer :: n
        call read_reading(n, t, fars, costs)
        if (.not. can_be_said) return
        fars_again = fars
        costs_again = costs
        r = asked(t, fars, costs)
        again = other(t, fars_again, costs_again)
        if (r%number /= again%number .or. r%rows /= again%rows .or. any([r%table, r%a, r%b, r%c, r%d] &
            /= [again%table, again%a, again%b, again%c, again%d])) call fault('the two engines differ in the answer')
        if (any(fars /= fars_again) .or. any(costs /= costs_again)) call fault('the two engines differ in a place')
        call put_reading(r, n, fars, costs)
    end subroutine

    subroutine read_reading(n, t, fars, costs)
        integer, intent(out) :: n
        integer(int32), allocatable, intent(out) :: t(:, :), costs(:)
        integer(int64), allocatable, intent(out) :: fars(:)
        call read_table(n, t)
        fars = slice64()
        costs = slice32()
    end subroutine

    subroutine put_reading(r, n, fars, costs)
        type(kemotuiki_rows_answer), intent(in) :: r
        integer, intent(in) :: n
        integer(int64), intent(in) :: fars(:)
        integer(int32), intent(in) :: costs(:)
        call put_answer(r, [integer(int64) :: r%rows])
        call put_rows(r, n, r%rows, fars, costs)
    end subroutine

    subroutine do_path()
        type(kemotuiki_path_answer) :: r
        integer(int64), allocatable :: fars(:)
        integer(int32), allocatable :: costs(:)
        integer :: n, i, j
        call read_rows(n, fars, costs)
        i = small_number()
        j = small_number()
        if (.not. can_be_said) return
        r = kemotuiki_path(n, fars, costs, i, j)
        call put_answer(r, [integer(int64) :: r%cost])
        call note_far_sides(r, n, fars)
    end subroutine

    subroutine do_upper_rows()
        type(kemotuiki_rows_answer) :: r
        integer(int64), allocatable :: fars(:)
        integer(int32), allocatable :: costs(:), out(:)
        integer :: n
        call read_rows(n, fars, costs)
        out = slice32()
        if (.not. can_be_said) return
        r = kemotuiki_upper_rows(n, fars, costs, out)
        call put_answer(r, [integer(int64) :: r%rows])
        call put(out)
        call note_far_sides(r, n, fars)
    end subroutine

    subroutine do_route()
        type(kemotuiki_rows_answer) :: r
        integer(int64), allocatable :: fars(:)
        integer(int32), allocatable :: costs(:), out(:)
        integer :: n, i
        call read_rows(n, fars, costs)
        i = small_number()
        out = slice32()
        if (.not. can_be_said) return
        r = kemotuiki_route(n, fars, costs, i, out)
        call put_answer(r, [integer(int64) :: r%rows])
        call put(out)
        call note_far_sides(r, n, fars)
    end subroutine

    ! A second table that does not have the shape of the first is one column here, whatever its length.
    subroutine do_compare()
        type(kemotuiki_comparison_answer) :: r
        integer(int32), allocatable :: first(:, :), second(:, :), entries(:)
        integer :: n
        call read_table(n, first)
        entries = slice32()
        if (.not. can_be_said) return
        if (size(entries) == size(first)) then
            second = table(n, entries)
        else
            second = table(size(entries), entries)
        end if
        r = kemotuiki_compare(first, second)
        call put_answer(r, [integer(int64) :: r%inner_first, r%inner_second, r%common, r%count, r%over], tables=.true.)
    end subroutine

    subroutine do_consensus()
        type(kemotuiki_rows_answer) :: r
        integer(int32), allocatable :: tables(:, :, :), costs(:)
        integer(int64), allocatable :: fars(:)
        integer :: n
        call read_team(n, tables)
        fars = slice64()
        costs = slice32()
        if (.not. can_be_said) return
        r = kemotuiki_consensus(tables, fars, costs)
        call put_answer(r, [integer(int64) :: r%rows], tables=.true.)
        call put_rows(r, n, r%rows, fars, costs)
    end subroutine

    ! The values stand beside the refusal of an event, which ends the replay. The events are bytes, and once more default integers.
    subroutine do_replay()
        type(kemotuiki_replay_answer) :: r, again
        integer(int32), allocatable :: t(:, :), costs(:), costs_again(:)
        integer(int64), allocatable :: fars(:), fars_again(:)
        integer(int8), allocatable :: events(:)
        integer :: n, taken
        call read_table(n, t)
        events = slice8()
        fars = slice64()
        costs = slice32()
        if (.not. can_be_said) return
        fars_again = fars
        costs_again = costs
        r = kemotuiki_replay(t, events, fars, costs)
        again = kemotuiki_replay(t, iand(int(events), 255), fars_again, costs_again)
        if (again%number /= r%number .or. any([again%images, again%rows, again%event] /= [r%images, r%rows, r%event]) &
            .or. any(fars_again /= fars) .or. any(costs_again /= costs)) call fault('events of the two kinds differ')
        taken = merge(size(events), r%event - 1, r%accepted())
        if (taken >= 0) call hold_left(t, iand(int(events(:taken)), 255), r, fars, costs)
        if (taken < 0 .and. r%images + r%rows > 0) call fault('values beside the refusal of a start')
        call put_answer(r, [integer(int64) ::])
        call put_values([integer(int64) :: r%images, r%rows, r%event])
        call put_rows(r, r%images, r%rows, fars, costs)
    end subroutine

    ! The rows are the exact reading of the images that are left.
    subroutine hold_left(t, events, r, fars, costs)
        integer(int32), intent(in) :: t(:, :), costs(:)
        integer, intent(in) :: events(:)
        type(kemotuiki_replay_answer), intent(in) :: r
        integer(int64), intent(in) :: fars(:)
        type(kemotuiki_rows_answer) :: anew
        integer(int64) :: fars_anew(kemotuiki_rows)
        integer(int32) :: costs_anew(kemotuiki_rows)
        integer, allocatable :: left(:)
        integer :: k
        logical :: same
        left = [(k, k = 1, size(t, 1))]
        do k = 1, size(events)
            left = [left(:events(k) - 1), left(events(k) + 1:)]
        end do
        anew = kemotuiki_exact_grafted(t(left, left), fars_anew, costs_anew)
        same = r%images == size(left) .and. anew%accepted() .and. anew%rows == r%rows
        if (same) same = all(fars_anew(:r%rows) == fars(:r%rows)) .and. all(costs_anew(:r%rows) == costs(:r%rows))
        if (.not. same) call fault('what is left is not the exact reading of the smaller table')
    end subroutine

    ! The values stand beside the refusal of a table, which ends the report. Of each array there are the places written, and how many
    ! behind them are as they were.
    subroutine do_report()
        type(kemotuiki_report_answer) :: r
        integer(int8), allocatable, save :: bytes(:)
        integer(int64), allocatable :: fars(:), sums(:), fars_before(:), sums_before(:)
        integer(int32), allocatable :: trees(:), trees_before(:)
        integer :: k
        call read_stream(bytes)
        fars = filled64()
        trees = filled32()
        sums = filled64()
        fars_before = fars
        trees_before = trees
        sums_before = sums
        r = kemotuiki_report(bytes, fars, trees, sums)
        call put_answer(r, [integer(int64) ::], tables=.true.)
        call put_values([integer(int64) :: r%images, r%tables, r%accepted_tables, r%apart, r%sides, r%pairs, r%count_sum, &
                         r%largest_count, r%used])
        k = r%sides
        call put(fars(:k))
        call put_values([count(fars(k + 1:) == fars_before(k + 1:), kind=int64)])
        call put(trees(:k))
        call put_values([count(trees(k + 1:) == trees_before(k + 1:), kind=int64)])
        call put(sums(:k))
        call put_values([count(sums(k + 1:) == sums_before(k + 1:), kind=int64)])
        call note_far_sides(r, r%images, fars(:k))
    end subroutine

    subroutine do_levels()
        type(kemotuiki_levels_answer) :: r
        integer(int32), allocatable :: t(:, :), heights(:)
        integer(int64), allocatable :: members(:)
        integer :: n
        call read_reading(n, t, members, heights)
        if (.not. can_be_said) return
        r = kemotuiki_levels(t, members, heights)
        call put_answer(r, [integer(int64) :: r%groups])
        call put_rows(r, n, r%groups, members, heights)
        if (r%accepted()) call hold_groups(t, members(:r%groups), heights(:r%groups))
    end subroutine

    ! The last group is all images, the table has a tree, and each other group is one side of a row of it; the entry of two images is the
    ! height of the first group that holds both.
    subroutine hold_groups(t, members, heights)
        integer(int32), intent(in) :: t(:, :), heights(:)
        integer(int64), intent(in) :: members(:)
        type(kemotuiki_rows_answer) :: r
        integer(int64) :: fars(kemotuiki_rows), everyone, side
        integer(int32) :: costs(kemotuiki_rows)
        integer :: i, j, k, groups
        groups = size(members)
        everyone = ishft(-1_int64, size(t, 1) - kemotuiki_images)
        r = kemotuiki_exact(t, fars, costs)
        if (.not. r%accepted()) call fault('a table with levels has no tree')
        if (members(groups) /= everyone) call fault('the last group is not all images')
        do k = 1, groups - 1
            side = merge(ieor(members(k), everyone), members(k), btest(members(k), 0))
            if (.not. any(fars(:r%rows) == side)) call fault('a group is no side of a row')
        end do
        do j = 2, size(t, 1)
            do i = 1, j - 1
                do k = 1, groups - 1
                    if (btest(members(k), i - 1) .and. btest(members(k), j - 1)) exit
                end do
                if (heights(k) /= t(i, j)) call fault('an entry is not the height of the smallest group')
            end do
        end do
    end subroutine

    subroutine do_write_costs()
        type(kemotuiki_bytes_answer) :: r
        integer(int32), allocatable :: t(:, :)
        integer(int8), allocatable :: out(:)
        integer :: form, n
        form = small_number()
        call read_table(n, t)
        out = slice8()
        if (.not. can_be_said) return
        r = kemotuiki_write_costs(form, t, out)
        call put_answer(r, [r%used])
        call put(out)
    end subroutine

    ! The room is a table in Fortran. A smaller stored table stands in its corner, but in the case in front of the lent places: so
    ! the corner is taken over to those.
    subroutine do_read_costs()
        type(kemotuiki_costs_answer) :: r
        integer(int8), allocatable :: bytes(:)
        integer(int32), allocatable :: t(:, :), before(:, :), out(:)
        integer(int64) :: position
        integer :: rows, n
        bytes = slice8()
        position = number()
        out = slice32()
        rows = nint(sqrt(real(size(out))))
        can_be_said = rows**2 == size(out)
        if (.not. can_be_said) return
        before = table(rows, out)
        t = before
        if (fits(position)) then
            r = kemotuiki_read_costs(bytes, int(position), t)
        else
            r = kemotuiki_read_costs(bytes, position, t)
        end if
        n = r%n
        out(:n**2) = reshape(transpose(t(:n, :n)), [n**2])
        before(:n, :n) = t(:n, :n)
        if (any(t /= before)) call fault('a place outside the stored table was altered')
        call put_answer(r, [integer(int64) :: r%n, r%used])
        call put(out)
    end subroutine

    subroutine do_write_links()
        type(kemotuiki_bytes_answer) :: r
        integer(int64), allocatable :: fars(:)
        integer(int32), allocatable :: costs(:)
        integer(int8), allocatable :: out(:)
        integer :: form, n
        form = small_number()
        call read_rows(n, fars, costs)
        out = slice8()
        if (.not. can_be_said) return
        r = kemotuiki_write_links(form, n, fars, costs, out)
        call put_answer(r, [r%used])
        call put(out)
        call note_far_sides(r, n, fars)
    end subroutine

    subroutine do_read_links()
        type(kemotuiki_links_answer) :: r
        integer(int8), allocatable :: bytes(:)
        integer(int64), allocatable :: fars(:)
        integer(int32), allocatable :: costs(:)
        integer(int64) :: position
        bytes = slice8()
        position = number()
        fars = slice64()
        costs = slice32()
        if (fits(position)) then
            r = kemotuiki_read_links(bytes, int(position), fars, costs)
        else
            r = kemotuiki_read_links(bytes, position, fars, costs)
        end if
        call put_answer(r, [integer(int64) :: r%n, r%rows, r%used])
        call put_rows(r, r%n, r%rows, fars, costs)
    end subroutine

    subroutine do_write_batch()
        type(kemotuiki_bytes_answer) :: r
        integer(int32), allocatable :: ns(:), counts(:), costs(:)
        integer(int64), allocatable :: fars(:)
        integer(int8), allocatable :: out(:)
        integer :: form
        form = small_number()
        ns = slice32()
        counts = slice32()
        fars = slice64()
        costs = slice32()
        out = slice8()
        if (.not. can_be_said) return
        r = kemotuiki_write_batch(form, ns, counts, fars, costs, out)
        call put_answer(r, [r%used], tables=.true.)
        call put(out)
    end subroutine

    subroutine do_convert_costs()
        call conversion(kemotuiki_convert_costs)
    end subroutine

    subroutine do_convert_links()
        call conversion(kemotuiki_convert_links)
    end subroutine

    ! What was written is converted once more to the form that it then has, and must stay.
    subroutine conversion(convert)
        procedure(converter) :: convert
        type(kemotuiki_bytes_answer) :: r, s
        integer(int8), allocatable :: bytes(:), out(:), again(:)
        integer :: form
        form = small_number()
        bytes = slice8()
        out = slice8()
        if (.not. can_be_said) return
        r = convert(form, bytes, out)
        if (r%accepted()) then
            allocate (again(r%used))
            again = 0
            s = convert(-form, out(:r%used), again)
            if (s%used /= r%used .or. any(again /= out(:r%used))) call fault('converted to its own form, it is not the same')
        end if
        call put_answer(r, [r%used])
        call put(out)
    end subroutine

    subroutine do_write_newick()
        type(kemotuiki_bytes_answer) :: r
        integer(int64), allocatable :: fars(:)
        integer(int32), allocatable :: costs(:)
        character(:), allocatable :: out
        integer :: n
        call read_rows(n, fars, costs)
        out = slice_text()
        if (.not. can_be_said) return
        r = kemotuiki_write_newick(n, fars, costs, out)
        if (r%accepted()) call both_ways(n, fars, costs, out(:r%used))
        call put_answer(r, [r%used])
        call put(out)
        call note_far_sides(r, n, fars)
    end subroutine

    subroutine do_read_newick()
        type(kemotuiki_tree_answer) :: r
        character(:), allocatable :: text
        integer(int64), allocatable :: fars(:)
        integer(int32), allocatable :: costs(:)
        text = slice_text()
        fars = slice64()
        costs = slice32()
        r = kemotuiki_read_newick(text, fars, costs)
        if (r%accepted()) call both_ways(r%n, fars(:r%rows), costs(:r%rows), text)
        call put_answer(r, [integer(int64) :: r%n, r%rows])
        call put_rows(r, r%n, r%rows, fars, costs)
    end subroutine

    ! The rows are written as this text, and the text is read as these rows.
    subroutine both_ways(n, fars, costs, text)
        integer, intent(in) :: n
        integer(int64), intent(in) :: fars(:)
        integer(int32), intent(in) :: costs(:)
        character(*), intent(in) :: text
        type(kemotuiki_bytes_answer) :: written
        type(kemotuiki_tree_answer) :: read_back
        character(len(text)) :: text_again
        integer(int64) :: fars_again(kemotuiki_rows)
        integer(int32) :: costs_again(kemotuiki_rows)
        logical :: same
        text_again = ''
        written = kemotuiki_write_newick(n, fars, costs, text_again)
        if (written%used /= len(text) .or. text_again /= text) call fault('its rows are not written as the same text')
        read_back = kemotuiki_read_newick(text, fars_again, costs_again)
        same = read_back%accepted() .and. read_back%n == n .and. read_back%rows == size(fars)
        if (same) same = all(fars_again(:size(fars)) == fars) .and. all(costs_again(:size(fars)) == costs)
        if (.not. same) call fault('its text is not read as the same rows')
    end subroutine

    subroutine do_choice()
        type(kemotuiki_choice_answer) :: r
        integer(int8), allocatable :: first(:), second(:)
        first = slice8()
        second = slice8()
        r = kemotuiki_choice(first, second)
        call put_answer(r, [integer(int64) :: r%chosen, r%used], tables=.true.)
        if (r%chosen == 1) then
            call put(first(:r%used))
        else
            call put(second(:r%used))
        end if
    end subroutine

end module

! What no case says. The texts and the answers here were written by hand from kemotuiki.h.
module by_hand
    use, intrinsic :: iso_fortran_env, only: error_unit, int8, int32, int64
    use kemotuiki
    implicit none
    private
    public :: compare_by_hand

    integer :: wrong

contains

    subroutine compare_by_hand(version, faults)
        character(*), intent(in) :: version
        integer, intent(out) :: faults
        character(32) :: joined
        wrong = 0
        write (joined, '(i0, a, i0, a, i0)') kemotuiki_version_major, '.', kemotuiki_version_minor, '.', kemotuiki_version_patch
        call hold('the version', kemotuiki_version == version .and. joined == version)
        call texts()
        call places_by_rows()
        call stored_nothing()
        call own_link_of_nothing()
        call another_shape()
        call teams()
        call stored_in_a_corner()
        call stored_forms()
        call newick_texts()
        call replays()
        call reports()
        call most_sides()
        call levels()
        call sections()
        faults = wrong
    end subroutine

    subroutine hold(what, condition)
        character(*), intent(in) :: what
        logical, intent(in) :: condition
        if (condition) return
        write (error_unit, '(2a)') what, ': not so'
        wrong = wrong + 1
    end subroutine

    subroutine texts()
        call say(kemotuiki_accepted, 0, [0, 0, 0, 0], 'accepted')
        call say(kemotuiki_bad_n, 0, [65, 0, 0, 0], 'n outside 3..64: n 65')
        call say(kemotuiki_bad_n, 0, [-1, 0, 0, 0], 'n outside 3..64: n 18446744073709551615')
        call say(kemotuiki_bad_length, 0, [0, 0, 0, 0], 'a length does not fit n or the row count')
        call say(kemotuiki_bad_length, 3, [0, 0, 0, 0], 'table 3: a length does not fit n or the row count')
        call say(kemotuiki_no_room, 0, [0, 0, 0, 0], 'too little room')
        call say(kemotuiki_entry_too_large, 0, [1, 5, 0, 0], 'entry above the limit: row and column 1 5')
        call say(kemotuiki_diagonal_not_zero, 0, [3, 0, 0, 0], 'diagonal not zero: image 3')
        call say(kemotuiki_asymmetric, 0, [1, 3, 0, 0], 'asymmetric: row and column 1 3')
        call say(kemotuiki_no_wiring, 0, [1, 2, 3, 5], 'no wiring: images 1 2 3 5')
        call say(kemotuiki_no_wiring, 2, [1, 2, 3, 5], 'table 2: no wiring: images 1 2 3 5')
        call say(kemotuiki_bad_image, 0, [0, 0, 0, 0], 'image outside 1..n, or first and last the same')
        call say(kemotuiki_bytes_end, 0, [0, 0, 0, 0], 'stored bytes end early')
        call say(kemotuiki_bad_row_count, 0, [17, 0, 0, 0], 'row count outside n..2n-3: count 17')
        call say(kemotuiki_fill_not_zero, 0, [0, 0, 0, 0], 'fill bits not zero')
        call say(kemotuiki_bad_row, 0, [0, 0, 0, 0], 'bad far side or bad row')
        call say(kemotuiki_bad_row, 0, [4, 0, 0, 0], 'bad far side or bad row: row 4')
        call say(kemotuiki_own_link_missing, 0, [5, 0, 0, 0], 'an own link is missing: image 5')
        call say(kemotuiki_neither_includes, 0, [0, 0, 0, 0], 'neither table includes the other')
        call say(kemotuiki_different_n, 0, [0, 0, 0, 0], 'stored tables of different n')
        call say(kemotuiki_bad_table_count, 0, [0, 0, 0, 0], 'no tables or more than sixteen')
        call say(kemotuiki_above_old_limits, 0, [4, 0, 0, 0], 'number above the old limits: row 4')
        call say(kemotuiki_above_old_limits, 2, [1, 5, 0, 0], 'table 2: number above the old limits: row and column 1 5')
        call say(kemotuiki_outside_profile, 0, [5, 0, 0, 0], 'outside the Newick profile: byte 5')
        call say(kemotuiki_too_many_sides, 0, [0, 0, 0, 0], 'more than 1,024 far sides in one report')
        call say(kemotuiki_too_many_sides, 500, [0, 0, 0, 0], 'table 500: more than 1,024 far sides in one report')
        call say(kemotuiki_zero_off_diagonal, 0, [1, 2, 0, 0], 'zero off the diagonal: row and column 1 2')
        call say(kemotuiki_zero_off_diagonal, 500, [63, 64, 0, 0], 'table 500: zero off the diagonal: row and column 63 64')
        call say(kemotuiki_no_levels, 0, [1, 2, 3, 0], 'no levels: images 1 2 3')
        call say(kemotuiki_no_levels, 2, [62, 63, 64, 5], 'table 2: no levels: images 62 63 64')
        call say(kemotuiki_siblings_out_of_order, 0, [10, 0, 0, 0], 'siblings out of order: byte 10')
        call say(23, 0, [0, 0, 0, 0], 'no such refusal: number 23')
    end subroutine

    subroutine say(number, table, places, text)
        integer, intent(in) :: number, table, places(4)
        character(*), intent(in) :: text
        type(kemotuiki_answer) :: r
        character(:), allocatable :: said
        r = kemotuiki_answer(number, table, places(1), places(2), places(3), places(4))
        said = r%text()
        call hold('the text "' // text // '", and not "' // said // '"', len(said) == len(text) .and. said == text)
        call hold('accepted: ' // text, r%accepted() .eqv. text == 'accepted')
    end subroutine

    ! A star of n images, each one away from the middle: every entry off the diagonal is 2.
    pure function star(n) result(t)
        integer, intent(in) :: n
        integer :: t(n, n), i
        t = 2
        do i = 1, n
            t(i, i) = 0
        end do
    end function

    ! Of two entries too large, the one in row 2 comes before the one in row 4, though it stands behind it in memory; so does, of two pairs of
    ! images that cost nothing, the one in row 1 before the one in row 2.
    subroutine places_by_rows()
        integer :: t(6, 6)
        t = star(6)
        t(2, 5) = kemotuiki_entry_limit + 1
        t(4, 1) = kemotuiki_entry_limit + 1
        call refused_by_every_call('too large', t, kemotuiki_entry_too_large, 2, 5)
        t = star(6)
        t(1, 6) = 0
        t(6, 1) = 0
        t(2, 3) = 0
        t(3, 2) = 0
        t(4, 5) = 9
        t(5, 4) = 9
        call refused_by_every_call('a zero', t, kemotuiki_zero_off_diagonal, 1, 6)
    end subroutine

    ! Refused by this number at row i and column j, before a far side, images or events that are not there, before the images without a
    ! wiring, and before room for bytes.
    subroutine refused_by_every_call(what, t, number, i, j)
        character(*), intent(in) :: what
        integer, intent(in) :: t(6, 6), number, i, j
        integer :: out(6), costs(9)
        integer(int64) :: fars(9)
        integer(int8) :: bytes(0)
        call hold('index, '//what, refused_at(kemotuiki_index(t, 0), number, 0, i, j))
        call hold('order, '//what, refused_at(kemotuiki_order(t, 1, 7, out), number, 0, i, j))
        call hold('measured, '//what, refused_at(kemotuiki_measured(t, fars, costs), number, 0, i, j))
        call hold('exact, '//what, refused_at(kemotuiki_exact(t, fars, costs), number, 0, i, j))
        call hold('exact_grafted, '//what, refused_at(kemotuiki_exact_grafted(t, fars, costs), number, 0, i, j))
        call hold('levels, '//what, refused_at(kemotuiki_levels(t, fars, costs), number, 0, i, j))
        call hold('write_costs, '//what, refused_at(kemotuiki_write_costs(kemotuiki_old_form, t, bytes), number, 0, i, j))
        call hold('write_costs, new form, '//what, refused_at(kemotuiki_write_costs(kemotuiki_new_form, t, bytes), number, 0, i, j))
        call hold('compare, first table, '//what, refused_at(kemotuiki_compare(t, star(6)), number, 1, i, j))
        call hold('compare, second table, '//what, refused_at(kemotuiki_compare(star(6), t), number, 2, i, j))
        call hold('consensus, third table, '//what, refused_at(kemotuiki_consensus(stars_and(t), fars, costs), number, 3, i, j))
        call hold('replay, '//what, refused_at(kemotuiki_replay(t, [0], fars, costs), number, 0, i, j))
    end subroutine

    ! A team of four stars, of which t stands in the third place.
    pure function stars_and(t) result(tables)
        integer, intent(in) :: t(6, 6)
        integer :: tables(6, 6, 4)
        tables = spread(star(6), 3, 4)
        tables(:, :, 3) = t
    end function

    pure function refused_at(r, number, table, row, column)
        class(kemotuiki_answer), intent(in) :: r
        integer, intent(in) :: number, table, row, column
        logical :: refused_at
        refused_at = r%number == number .and. all([r%table, r%a, r%b, r%c, r%d] == [table, row, column, 0, 0])
    end function

    pure function zero_at(r, table, row, column)
        class(kemotuiki_answer), intent(in) :: r
        integer, intent(in) :: table, row, column
        logical :: zero_at
        zero_at = refused_at(r, kemotuiki_zero_off_diagonal, table, row, column)
    end function

    ! Document 01's B in both stored forms, byte by byte, alone and behind a star.
    subroutine stored_nothing()
        integer, parameter :: room = kemotuiki_report_sides
        integer(int8), parameter :: old(9) = [6_int8, spread(0_int8, 1, 8)], new(11) = [-2_int8, 12_int8, spread(0_int8, 1, 9)]
        integer(int64) :: fars(room), sums(room)
        integer :: trees(room), t(3, 3)
        integer(int8) :: out(11)
        type(kemotuiki_report_answer) :: r
        t = -1
        fars = -1
        out = -1
        call hold('read_costs of nothing', zero_at(kemotuiki_read_costs(old, 0, t), 0, 1, 2) .and. all(t == -1))
        call hold('read_costs of nothing, new form', zero_at(kemotuiki_read_costs(new, 0, t), 0, 1, 2) .and. all(t == -1))
        call hold('convert_costs of nothing', zero_at(kemotuiki_convert_costs(kemotuiki_new_form, old, out), 0, 1, 2))
        call hold('convert_costs of nothing, to old', zero_at(kemotuiki_convert_costs(kemotuiki_old_form, new, out), 0, 1, 2))
        call hold('nothing converted', all(out == -1_int8))
        r = kemotuiki_report(new, fars, trees, sums)
        call hold('a report of nothing', zero_at(r, 1, 1, 2) .and. all(figures(r) == 0))
        r = kemotuiki_report([stored(kemotuiki_new_form, star(3)), old], fars, trees, sums)
        call hold('a report with nothing in its second table', zero_at(r, 2, 1, 2) .and. all(fars == -1) &
                  .and. all(figures(r) == [3, 1, 1, 0, 0, 0, 0, 0, 11]))
        r = kemotuiki_report([stored(kemotuiki_old_form, star(4)), old], fars, trees, sums)
        call hold('three images that cost nothing behind four', r%text() == 'table 2: zero off the diagonal: row and column 1 2')
    end subroutine

    ! Document 01's D, in which image 1 stands between the others: its own link costs 0 and stays.
    subroutine own_link_of_nothing()
        integer, parameter :: d(3, 3) = reshape([0, 1, 1, 1, 0, 2, 1, 2, 0], [3, 3])
        integer(int64) :: fars(3)
        integer :: costs(3), back(3, 3)
        integer(int8) :: bytes(16)
        type(kemotuiki_index_answer) :: i
        type(kemotuiki_rows_answer) :: r
        type(kemotuiki_bytes_answer) :: w
        type(kemotuiki_costs_answer) :: c
        i = kemotuiki_index(d, 6)
        call hold('the index of image 1 between others', i%accepted() .and. i%signed_index == 0)
        r = kemotuiki_measured(d, fars, costs)
        call hold('image 1 between others, measured', r%rows == 3 .and. all(fars == [2, 4, 6]) .and. all(costs == [2, 2, 0]))
        costs = -1
        r = kemotuiki_exact(d, fars, costs)
        call hold('image 1 between others, read exactly', r%rows == 3 .and. all(fars == [2, 4, 6]) .and. all(costs == [2, 2, 0]))
        costs = -1
        r = kemotuiki_consensus(spread(d, 3, 2), fars, costs)
        call hold('image 1 between others, twice', r%rows == 3 .and. all(costs == [2, 2, 0]))
        w = kemotuiki_write_costs(kemotuiki_new_form, d, bytes)
        c = kemotuiki_read_costs(bytes, 0, back)
        call hold('image 1 between others, stored', w%used == 11 .and. c%accepted() .and. all(back == d))
    end subroutine

    ! 9 by 4 entries are as many as 6 by 6, and still no table of 6 images.
    subroutine another_shape()
        type(kemotuiki_comparison_answer) :: r
        r = kemotuiki_compare(star(6), reshape(star(6), [9, 4]))
        call hold('a second table of another shape', r%number == kemotuiki_bad_length .and. r%table == 2)
        r = kemotuiki_compare(reshape(star(6), [9, 4]), star(6))
        call hold('a first table of another shape', r%number == kemotuiki_bad_length .and. r%table == 1)
    end subroutine

    ! Three stars, of which the second has the smallest costs. No tables at all, as many as a team may have, and one more; and
    ! tables of 6 by 9 entries, which are none of 6 images.
    subroutine teams()
        type(kemotuiki_rows_answer) :: r
        integer(int64) :: fars(9)
        integer :: costs(9), tables(4, 4, 3)
        fars = -1
        costs = -1
        tables(:, :, 1) = 4 * star(4)
        tables(:, :, 2) = star(4)
        tables(:, :, 3) = 2 * star(4)
        r = kemotuiki_consensus(tables, fars, costs)
        call hold('a team of stars', r%rows == 4 .and. all(fars == [2, 4, 8, 14, -1, -1, -1, -1, -1]) &
                  .and. all(costs == [2, 2, 2, 2, -1, -1, -1, -1, -1]))
        r = kemotuiki_consensus(tables(:, :, :0), fars, costs)
        call hold('no tables', r%number == kemotuiki_bad_table_count .and. r%table == 0)
        r = kemotuiki_consensus(spread(star(4), 3, kemotuiki_tables), fars, costs)
        call hold('as many tables as there may be', r%accepted() .and. r%rows == 4)
        r = kemotuiki_consensus(spread(star(4), 3, kemotuiki_tables + 1), fars, costs)
        call hold('one table too many', r%number == kemotuiki_bad_table_count .and. r%table == 0)
        r = kemotuiki_consensus(reshape(spread(star(6), 3, 3), [6, 9, 2]), fars, costs)
        call hold('tables of another shape', r%number == kemotuiki_bad_length .and. r%table == 0)
    end subroutine

    ! Two stored tables one after another, read into larger tables, and at positions of either kind.
    subroutine stored_in_a_corner()
        integer :: t(5, 7), narrow(2, 70), wide(70, 3)
        integer(int8) :: bytes(64)
        type(kemotuiki_bytes_answer) :: first, second
        type(kemotuiki_costs_answer) :: r
        first = kemotuiki_write_costs(kemotuiki_old_form, star(3), bytes)
        second = kemotuiki_write_costs(kemotuiki_old_form, star(5), bytes(first%used + 1:))
        call hold('two tables written', first%accepted() .and. first%used == 9 .and. second%accepted() .and. second%used == 26)
        t = -1
        r = kemotuiki_read_costs(bytes, 0, t)
        call hold('3 images in a corner', r%n == 3 .and. all(t(:3, :3) == star(3)))
        call hold('nothing beside the corner', all(t(4:, :) == -1) .and. all(t(:, 4:) == -1))
        r = kemotuiki_read_costs(bytes, 8 * r%used, t)
        call hold('5 images in a corner', r%n == 5 .and. all(t(:, :5) == star(5)) .and. all(t(:, 6:) == -1))
        narrow = -1
        r = kemotuiki_read_costs(bytes, 0_int64, narrow)
        call hold('no room in a narrow table', r%number == kemotuiki_no_room .and. all(narrow == -1))
        wide = -1
        r = kemotuiki_read_costs(bytes, 0, wide)
        call hold('room in a wide table', r%n == 3 .and. all(wide(:3, :) == star(3)) .and. all(wide(4:, :) == -1))
        r = kemotuiki_read_costs(bytes, -8, wide)
        call hold('a position below 0', r%number == kemotuiki_bytes_end)
    end subroutine

    ! The room and the limits that the module has for each form, on tables whose numbers are all at a limit; one number above the old
    ! limits, in row 2 and column 5 on both sides of the diagonal; and the same table in both forms.
    subroutine stored_forms()
        integer, parameter :: n = kemotuiki_images
        integer(int8) :: bytes(kemotuiki_cost_bytes), other(kemotuiki_cost_bytes)
        type(kemotuiki_bytes_answer) :: r
        type(kemotuiki_costs_answer) :: read_back
        integer :: t(6, 6), back(6, 6), big(n, n)
        big = star(n) / 2
        r = kemotuiki_write_costs(kemotuiki_old_form, kemotuiki_old_entry_limit * big, bytes(:kemotuiki_old_cost_bytes))
        call hold('the longest old table', r%accepted() .and. r%used == kemotuiki_old_cost_bytes)
        r = kemotuiki_write_costs(kemotuiki_new_form, kemotuiki_entry_limit * big, bytes)
        call hold('the longest new table', r%accepted() .and. r%used == kemotuiki_cost_bytes)
        r = kemotuiki_convert_costs(kemotuiki_old_form, bytes, other)
        call hold('the longest new table in the old form', r%number == kemotuiki_above_old_limits .and. r%a == 1 .and. r%b == 2)
        t = star(6)
        t(2, 5) = kemotuiki_old_entry_limit + 1
        t(5, 2) = kemotuiki_old_entry_limit + 1
        r = kemotuiki_write_costs(kemotuiki_old_form, t, bytes)
        call hold('above the old limits', r%number == kemotuiki_above_old_limits .and. r%a == 2 .and. r%b == 5)
        r = kemotuiki_write_costs(-1, t, bytes)
        read_back = kemotuiki_read_costs(bytes, 0, back)
        call hold('a number that is not 0 is the new form', r%accepted() .and. read_back%used == r%used .and. all(back == t))
        r = kemotuiki_write_costs(kemotuiki_old_form, star(6), bytes)
        r = kemotuiki_convert_costs(kemotuiki_new_form, bytes(:r%used), other)
        read_back = kemotuiki_read_costs(other, 0, back)
        call hold('old to new', r%accepted() .and. read_back%used == r%used .and. all(back == star(6)))
        bytes(:40) = 7
        r = kemotuiki_convert_costs(kemotuiki_old_form, other(:r%used), bytes)
        read_back = kemotuiki_read_costs(bytes, 0, back)
        call hold('and back to old', r%used == 39 .and. bytes(40) == 7 .and. read_back%used == 39 .and. all(back == star(6)))
    end subroutine

    ! The longest text, a caterpillar of all images with costs of eight digits, in just enough room and in one character less; a text in
    ! a longer variable, which stays behind it; a trimmed one, and one with its blanks; no text; and texts that are refused.
    subroutine newick_texts()
        integer, parameter :: n = kemotuiki_images
        character(kemotuiki_newick_bytes) :: long
        character(30) :: text
        integer(int64) :: fars(kemotuiki_rows)
        integer :: costs(kemotuiki_rows), i
        type(kemotuiki_bytes_answer) :: w
        type(kemotuiki_tree_answer) :: r
        fars(1) = 2
        do i = 2, n - 1
            fars(2 * i - 2) = ibset(0_int64, i)
            fars(2 * i - 1) = ibclr(ishft(not(0_int64), i - n + 1), 0)
        end do
        costs = 2 * kemotuiki_entry_limit
        long = '-'
        w = kemotuiki_write_newick(n, fars, costs, long(2:))
        call hold('the longest text in too little room', w%number == kemotuiki_no_room .and. long == '-')
        w = kemotuiki_write_newick(n, fars, costs, long)
        call hold('the longest text', w%accepted() .and. w%used == len(long) .and. long(:12) == '(1:16000000,' &
                  .and. long(len(long) - 13:) == ',64:16000000);')
        fars = 0
        r = kemotuiki_read_newick(long, fars, costs)
        call hold('the longest text read', r%n == n .and. r%rows == kemotuiki_rows .and. fars(3) == 6 .and. fars(125) == -2 &
                  .and. all(costs == 16000000))
        r = kemotuiki_read_newick(long, fars(:124), costs)
        call hold('the longest text without room', r%number == kemotuiki_no_room)
        text = repeat('-', len(text))
        w = kemotuiki_write_newick(4, [integer(int64) :: 2, 4, 8, 12, 14], [2, 2, 2, 4, 2], text)
        call hold('a text in a longer variable', w%used == 22 .and. text == '(1:2,2:2,(3:2,4:2):4);--------')
        text(23:) = ''
        r = kemotuiki_read_newick(trim(text), fars, costs)
        call hold('a trimmed text', r%n == 4 .and. r%rows == 5 .and. all(fars(:5) == [2, 4, 8, 12, 14]) &
                  .and. all(costs(:5) == [2, 2, 2, 4, 2]))
        r = kemotuiki_read_newick(text, fars, costs)
        call hold('a text with its blanks', r%number == kemotuiki_outside_profile .and. r%a == 23)
        r = kemotuiki_read_newick('', fars, costs)
        call hold('no text', r%number == kemotuiki_outside_profile .and. r%a == 1)
        r = kemotuiki_read_newick('(1:02,2:2,3:2);', fars, costs)
        call hold('a text outside the profile', r%text() == 'outside the Newick profile: byte 5')
        r = kemotuiki_read_newick('(1:2,4:2,2:2,3:2);', fars, costs)
        call hold('siblings out of order', r%text() == 'siblings out of order: byte 10' .and. r%rows == 0)
    end subroutine

    ! Of four images that stand in two pairs some leave: none, image 1, and then one too many. Events that no byte holds are no images, and
    ! a byte above 127, which is negative, neither. With all 64 images, 61 leave and the next one is refused, whatever follows.
    subroutine replays()
        integer, parameter :: n = kemotuiki_images
        integer, parameter :: t(4, 4) = reshape([0, 2, 4, 4, 2, 0, 4, 4, 4, 4, 0, 2, 4, 4, 2, 0], [4, 4])
        integer, parameter :: unknown(6) = [0, 5, 257, -1, -huge(0), huge(0)]
        type(kemotuiki_replay_answer) :: r
        integer(int64) :: fars(kemotuiki_rows)
        integer :: costs(kemotuiki_rows), k
        fars = -1
        costs = -1
        r = kemotuiki_replay(t, [integer ::], fars, costs)
        call hold('a replay without events', r%accepted() .and. r%images == 4 .and. r%rows == 5 .and. r%event == 0 &
                  .and. all(fars(:6) == [2, 4, 8, 12, 14, -1]) .and. all(costs(:6) == [2, 2, 2, 4, 2, -1]))
        fars = -1
        r = kemotuiki_replay(t, [1], fars, costs)
        call hold('image 1 leaves', r%accepted() .and. r%images == 3 .and. r%rows == 3 .and. all(fars(:4) == [2, 4, 6, -1]) &
                  .and. all(costs(:4) == [2, 2, 6, 4]))
        do k = 1, size(unknown)
            fars = -1
            r = kemotuiki_replay(t, [4, unknown(k), 1], fars, costs)
            call hold('an event that no image has', r%number == kemotuiki_bad_image .and. r%event == 2 .and. r%images == 3 &
                      .and. r%rows == 3 .and. all(fars(:4) == [2, 4, 6, -1]) .and. all(costs(:3) == [2, 6, 2]))
        end do
        r = kemotuiki_replay(t, [1_int8, -1_int8], fars, costs)
        call hold('a byte that no image has', r%number == kemotuiki_bad_image .and. r%event == 2)
        r = kemotuiki_replay(t, [1, 3], fars, costs)
        call hold('two would be left', r%text() == 'n outside 3..64: n 2' .and. r%event == 2 .and. r%images == 3)
        r = kemotuiki_replay(t(:, :3), [1], fars, costs)
        call hold('a start of another shape', r%number == kemotuiki_bad_length .and. r%images == 0 .and. r%event == 0)
        r = kemotuiki_replay(star(n), spread(1, 1, 1000), fars, costs)
        call hold('a thousand events', r%number == kemotuiki_bad_n .and. r%a == 2 .and. r%event == n - 2 .and. r%images == 3 &
                  .and. all(fars(:3) == [2, 4, 6]) .and. all(costs(:3) == 2))
    end subroutine

    ! No bytes; E, F, G and E of document 01, of which F has no tree, then with a byte behind them, and with three images behind them; one
    ! place too few of each kind; as many tables as there may be, with bytes behind them that are none.
    subroutine reports()
        integer, parameter :: room = kemotuiki_report_sides, most = kemotuiki_report_tables
        integer, parameter :: e(4, 4) = reshape([0, 2, 4, 4, 2, 0, 4, 4, 4, 4, 0, 2, 4, 4, 2, 0], [4, 4])
        integer, parameter :: f(4, 4) = reshape([0, 2, 3, 4, 2, 0, 4, 4, 3, 4, 0, 2, 4, 4, 2, 0], [4, 4])
        type(kemotuiki_report_answer) :: r
        integer(int64) :: fars(room), sums(room)
        integer :: trees(room), k
        integer(int8), allocatable :: bytes(:), term(:)
        fars = -1
        trees = -1
        sums = -1
        r = kemotuiki_report([integer(int8) ::], fars, trees, sums)
        call hold('a report without bytes', r%accepted() .and. all(figures(r) == 0) .and. r%table == 0 .and. all(fars == -1) &
                  .and. all(trees == -1) .and. all(sums == -1))
        bytes = [stored(kemotuiki_old_form, e), stored(kemotuiki_new_form, f), stored(kemotuiki_old_form, star(4)), &
                 stored(kemotuiki_new_form, e)]
        r = kemotuiki_report(bytes, fars, trees, sums)
        call hold('a report of four tables', r%accepted() .and. all(figures(r) == [4, 4, 3, 1, 1, 2, 2, 1, 70]) &
                  .and. fars(1) == 12 .and. trees(1) == 2 .and. sums(1) == 8)
        call hold('nothing behind the far sides', all(fars(2:) == -1) .and. all(trees(2:) == -1) .and. all(sums(2:) == -1))
        fars = -1
        r = kemotuiki_report([bytes, 0_int8], fars, trees, sums)
        call hold('a byte behind the tables', r%text() == 'table 5: n outside 3..64: n 0' .and. fars(1) == 12 &
                  .and. all(figures(r) == [4, 4, 3, 1, 1, 2, 2, 1, 70]))
        r = kemotuiki_report([bytes, stored(kemotuiki_old_form, star(3))], fars, trees, sums)
        call hold('three images behind four', r%text() == 'table 5: stored tables of different n' .and. r%used == 70)
        do k = 1, 3
            fars = -1
            r = kemotuiki_report(bytes, fars(merge(2, 1, k == 1):), trees(merge(2, 1, k == 2):), sums(merge(2, 1, k == 3):))
            call hold('one place too few', r%number == kemotuiki_no_room .and. r%table == 0 .and. all(figures(r) == 0) &
                      .and. all(fars == -1))
        end do
        term = [([stored(kemotuiki_new_form, 2000000 * e), stored(kemotuiki_new_form, 2000000 * star(4))], k = 1, most / 2)]
        r = kemotuiki_report([term, 7_int8, 7_int8], fars, trees, sums)
        call hold('as many tables as there may be', r%accepted() .and. trees(1) == 250 .and. sums(1) == 2000000000 &
                  .and. all(figures(r) == [4, most, most, 0, 1, most - 1, most - 1, 1, 19 * most]))
        r = kemotuiki_report([term(20:), 7_int8, 7_int8], fars, trees, sums)
        call hold('one table fewer', r%number == kemotuiki_bytes_end .and. r%table == most .and. r%tables == most - 1)
    end subroutine

    pure function figures(r)
        type(kemotuiki_report_answer), intent(in) :: r
        integer(int64) :: figures(9)
        figures = [integer(int64) :: r%images, r%tables, r%accepted_tables, r%apart, r%sides, r%pairs, r%count_sum, &
                   r%largest_count, r%used]
    end function

    function stored(form, t) result(bytes)
        integer, intent(in) :: form, t(:, :)
        integer(int8), allocatable :: bytes(:)
        integer(int8) :: room(kemotuiki_cost_bytes)
        type(kemotuiki_bytes_answer) :: r
        r = kemotuiki_write_costs(form, t, room)
        bytes = room(:r%used)
    end function

    ! Seventeen trees that have no inner far side in common, each with as many as 64 images can have: sixteen fit. The far sides that hold
    ! image 64 are negative and stand last.
    subroutine most_sides()
        integer, parameter :: room = kemotuiki_report_sides
        type(kemotuiki_report_answer) :: r
        integer(int64) :: fars(room), sums(room)
        integer :: trees(room), k
        integer(int8), allocatable :: bytes(:)
        fars = 0
        trees = 0
        sums = 0
        bytes = [(stored(kemotuiki_old_form, caterpillar(2 * k - 1)), k = 1, 17)]
        r = kemotuiki_report(bytes, fars, trees, sums)
        call hold('too many far sides', r%text() == 'table 17: more than 1,024 far sides in one report' &
                  .and. all(figures(r) == [64, 16, 16, 0, 976, 15, 15 * 122, 122, 16 * kemotuiki_old_cost_bytes]))
        call hold('the far sides before them', all(trees(:976) == 1) .and. all(sums(:976) == 40) .and. all(fars(977:) == 0) &
                  .and. all(ieor(fars(2:976), -huge(fars) - 1) > ieor(fars(:975), -huge(fars) - 1)) .and. any(fars < 0))
    end subroutine

    ! Images on the switches of one line, in the order of their multiples of an odd number, and two at each end.
    pure function caterpillar(multiplier) result(t)
        integer, intent(in) :: multiplier
        integer, parameter :: n = kemotuiki_images
        integer :: t(n, n), switch(n), i, j
        switch = [(min(max(mod((i - 1) * multiplier, n), 1), n - 2), i = 1, n)]
        do j = 1, n
            t(:, j) = 20 * abs(switch - switch(j)) + 10
            t(j, j) = 0
        end do
    end function

    ! E, and D, C and B of document 01; one place too few of each kind; a table of another shape; 64 images that are equally far, whose one
    ! group is -1 as a signed number; and as many groups as 64 images can have, in just enough room: each holds image 64, and is negative.
    subroutine levels()
        integer, parameter :: n = kemotuiki_images, most = kemotuiki_groups
        integer, parameter :: e(4, 4) = reshape([0, 2, 4, 4, 2, 0, 4, 4, 4, 4, 0, 2, 4, 4, 2, 0], [4, 4])
        integer, parameter :: d(3, 3) = reshape([0, 1, 1, 1, 0, 2, 1, 2, 0], [3, 3])
        integer, parameter :: c(3, 3) = reshape([0, 1, 1, 1, 0, 3, 1, 3, 0], [3, 3])
        type(kemotuiki_levels_answer) :: r
        integer(int64) :: members(most)
        integer :: heights(most), t(n, n), i, k
        members = -7
        heights = -7
        r = kemotuiki_levels(e, members, heights)
        call hold('the levels of E', r%accepted() .and. r%groups == 3 .and. all(members(:3) == [3, 12, 15]) &
                  .and. all(heights(:3) == [2, 2, 4]) .and. all(members(4:) == -7) .and. all(heights(4:) == -7))
        members = -7
        heights = -7
        r = kemotuiki_levels(d, members, heights)
        call hold('D has no levels', r%number == kemotuiki_no_levels .and. all([r%table, r%a, r%b, r%c, r%d] == [0, 1, 2, 3, 0]) &
                  .and. r%groups == 0)
        r = kemotuiki_levels(c, members, heights)
        call hold('C has no levels', r%text() == 'no levels: images 1 2 3' .and. r%groups == 0)
        call hold('the levels of B', zero_at(kemotuiki_levels(0 * d, members, heights), 0, 1, 2))
        r = kemotuiki_levels(e, members(:2), heights)
        call hold('one place too few for groups', r%number == kemotuiki_no_room .and. r%groups == 0)
        r = kemotuiki_levels(e, members, heights(:2))
        call hold('one place too few for heights', r%number == kemotuiki_no_room .and. r%groups == 0)
        r = kemotuiki_levels(e(:, :3), members, heights)
        call hold('levels of another shape', r%number == kemotuiki_bad_length)
        call hold('nothing written where levels are refused', all(members == -7) .and. all(heights == -7))
        r = kemotuiki_levels(star(n), members, heights)
        call hold('all 64 images', r%groups == 1 .and. members(1) == -1 .and. heights(1) == 2 .and. all(members(2:) == -7) &
                  .and. all(heights(2:) == -7))
        do i = 1, n
            t(i, i) = 0
            t(i, i + 1:) = n - i
            t(i + 1:, i) = n - i
        end do
        r = kemotuiki_levels(t, members, heights)
        call hold('as many groups as there may be', r%accepted() .and. r%groups == most .and. all(heights == [(k, k = 1, most)]) &
                  .and. all(members == [(ishft(-1_int64, most - k), k = 1, most)]))
    end subroutine

    ! Every second element of larger arrays: 4 images in a star, whose four own links cost 2, doubled; and the report of one table.
    subroutine sections()
        integer(int8), parameter :: all_events(3) = [4_int8, 9_int8, 2_int8]
        integer :: all_entries(8, 8), all_costs(10)
        integer(int64) :: all_fars(10)
        type(kemotuiki_rows_answer) :: r
        type(kemotuiki_levels_answer) :: level
        type(kemotuiki_replay_answer) :: left
        type(kemotuiki_report_answer) :: report
        integer(int8), allocatable :: stored_pairs(:), all_bytes(:)
        integer(int64) :: all_sides(2 * kemotuiki_report_sides), all_sums(2 * kemotuiki_report_sides)
        integer :: all_trees(2 * kemotuiki_report_sides)
        all_entries = -1
        all_entries(1:8:2, 1:8:2) = star(4)
        all_costs = -1
        all_fars = -1
        r = kemotuiki_exact(all_entries(1:8:2, 1:8:2), all_fars(2:10:2), all_costs(2:10:2))
        call hold('sections', r%rows == 4 .and. all(all_fars == [-1, 2, -1, 4, -1, 8, -1, 14, -1, -1]) &
                  .and. all(all_costs == [-1, 2, -1, 2, -1, 2, -1, 2, -1, -1]))
        all_fars = -1
        r = kemotuiki_exact_grafted(all_entries(1:8:2, 1:8:2), all_fars(2:10:2), all_costs(2:10:2))
        call hold('sections, grafted', r%rows == 4 .and. all(all_fars == [-1, 2, -1, 4, -1, 8, -1, 14, -1, -1]))
        all_fars = -1
        all_costs = -1
        level = kemotuiki_levels(all_entries(1:8:2, 1:8:2), all_fars(2:10:2), all_costs(2:10:2))
        call hold('sections, levels', level%groups == 1 .and. all(all_fars(:3) == [-1, 15, -1]) .and. all(all_fars(4:) == -1) &
                  .and. all(all_costs(:3) == [-1, 2, -1]) .and. all(all_costs(4:) == -1))
        all_fars = -1
        left = kemotuiki_replay(all_entries(1:8:2, 1:8:2), all_events(3:1:-2), all_fars(2:10:2), all_costs(2:10:2))
        call hold('sections, replayed', left%event == 2 .and. left%rows == 3 &
                  .and. all(all_fars == [-1, 2, -1, 4, -1, 6, -1, -1, -1, -1]))
        stored_pairs = stored(kemotuiki_old_form, reshape([0, 2, 4, 4, 2, 0, 4, 4, 4, 4, 0, 2, 4, 4, 2, 0], [4, 4]))
        allocate (all_bytes(2 * size(stored_pairs)))
        all_bytes = -1
        all_bytes(::2) = stored_pairs
        all_sides = -1
        all_trees = -1
        all_sums = -1
        report = kemotuiki_report(all_bytes(::2), all_sides(2::2), all_trees(2::2), all_sums(2::2))
        call hold('sections, reported', report%accepted() .and. report%sides == 1 .and. all(all_sides(:3) == [-1, 12, -1]) &
                  .and. all(all_trees(:3) == [-1, 1, -1]) .and. all(all_sums(:3) == [-1, 4, -1]) .and. all(all_sides(3:) == -1))
    end subroutine

end module

program fortran
    use case_text, only: answers, faults
    use case_calls, only: run_all
    use by_hand, only: compare_by_hand
    implicit none
    character(4096) :: first, second
    if (command_argument_count() /= 2) error stop 'usage: fortran DATA ANSWERS | fortran --by-hand VERSION'
    call get_command_argument(1, first)
    call get_command_argument(2, second)
    if (first == '--by-hand') then
        call compare_by_hand(trim(second), faults)
    else
        open (newunit=answers, file=trim(second), status='replace', action='write')
        call run_all(trim(first))
        close (answers)
    end if
    if (faults > 0) stop 1
end program
