! Kemotuiki for Fortran: relay trees from link costs. The calls of kemotuiki.h by the same names, with arrays for its slices. What a
! call answers, its refusals and the room that it needs are in kemotuiki.h. Fortran 2008 and later.
!
! Each call answers a type of its own. Values are there only where it was accepted, of a replay also where an event was refused, of a
! term report also where a table was, and r%text() says why it was refused:
!
!     r = kemotuiki_exact(t, fars, costs)
!     if (r%accepted()) then
!         print *, fars(:r%rows), costs(:r%rows)
!     else
!         print '(a)', r%text()                     ! no wiring: images 1 2 3 5
!     end if
!
! A cost table has rank 2: t(i, j) is the entry in row i and column j, 0 on the diagonal and nowhere else. The tables of a team have
! rank 3: tables(:, :, k) is table k.
! Entries, costs, heights, images, rows and counts are default integers, 32 bits in arrays; far sides, member sums and the sums of a
! term report are integer(int64), stored bytes integer(int8). The events of a replay, which are images, are default integers or bytes.
!
! What writes stored bytes is told the form first: kemotuiki_old_form, for entries to 1,000,000 and doubled costs to 2,000,000, which
! every version reads; or kemotuiki_new_form, for every table. What reads them takes both.
!
! A link table is also a Newick text, which tools that draw trees take: kemotuiki_write_newick writes it to the front of a character
! variable, text(:r%used), and kemotuiki_read_newick reads it. Blanks are no part of it, so what is read is text(:r%used) or trim(text).
!
! Fortran has no unsigned integers. A far side is 64 bits, image i is bit i-1, btest(far, i-1). With 64 images a far side that holds
! image 64 is negative as a signed number; its bits are right, and such rows stand last, since far sides ascend as unsigned numbers.
! Stored bytes from 128 on are negative likewise.
module kemotuiki
    use, intrinsic :: iso_c_binding, only: c_char, c_int8_t, c_int32_t, c_int64_t, word => c_size_t
    use, intrinsic :: iso_fortran_env, only: int8, int32, int64
    implicit none
    private

    ! The version, as the file VERSION has it.
    character(*), parameter, public :: kemotuiki_version = '4.1.0'
    integer, parameter, public :: kemotuiki_version_major = 4, kemotuiki_version_minor = 1, kemotuiki_version_patch = 0

    ! Room that is enough for every n: images, rows of a tree, groups of a table with levels, bytes of a stored table in either form, and
    ! in the old form alone; the tables of a team; characters of a Newick text; and bytes of a refusal's text.
    integer, parameter, public :: kemotuiki_images = 64, kemotuiki_rows = 125, kemotuiki_groups = 63, kemotuiki_tables = 16
    integer, parameter, public :: kemotuiki_cost_bytes = 5798, kemotuiki_link_bytes = 1362
    integer, parameter, public :: kemotuiki_old_cost_bytes = 5041, kemotuiki_old_link_bytes = 1315
    integer, parameter, public :: kemotuiki_newick_bytes = 1432
    integer, parameter :: text_bytes = 192

    ! The places that a term report needs in each of its arrays, which are the far sides that it keeps at most; and its most tables.
    integer, parameter, public :: kemotuiki_report_sides = 1024, kemotuiki_report_tables = 500

    ! The largest entry of a cost table, and the largest that the old stored form takes. A doubled cost is at most twice as much.
    integer, parameter, public :: kemotuiki_entry_limit = 8000000, kemotuiki_old_entry_limit = 1000000

    ! The form that a writer is told. Every other number is the new form too.
    integer, parameter, public :: kemotuiki_old_form = 0, kemotuiki_new_form = 1

    ! What an answer's number says; kemotuiki.h has what its places are.
    integer, parameter, public :: &
        kemotuiki_accepted = 0, &
        kemotuiki_bad_n = 1, &
        kemotuiki_bad_length = 2, &
        kemotuiki_no_room = 3, &
        kemotuiki_entry_too_large = 4, &
        kemotuiki_diagonal_not_zero = 5, &
        kemotuiki_asymmetric = 6, &
        kemotuiki_no_wiring = 7, &
        kemotuiki_bad_image = 8, &
        kemotuiki_bytes_end = 9, &
        kemotuiki_bad_row_count = 10, &
        kemotuiki_fill_not_zero = 11, &
        kemotuiki_bad_row = 12, &
        kemotuiki_own_link_missing = 13, &
        kemotuiki_neither_includes = 14, &
        kemotuiki_different_n = 15, &
        kemotuiki_bad_table_count = 16, &
        kemotuiki_above_old_limits = 17, &
        kemotuiki_outside_profile = 18, &
        kemotuiki_too_many_sides = 19, &
        kemotuiki_zero_off_diagonal = 20, &
        kemotuiki_no_levels = 21, &
        kemotuiki_siblings_out_of_order = 22

    ! What all answers begin with: the refusal's number or 0, the table that was refused in calls that take more than one, and the
    ! places. A place is the argument unchanged, so one above 2^63 - 1 is negative here.
    type, public :: kemotuiki_answer
        integer :: number
        integer(int64) :: table, a, b, c, d
    contains
        procedure :: accepted
        procedure :: text
    end type

    type, extends(kemotuiki_answer), public :: kemotuiki_index_answer
        integer(int64) :: signed_index
    end type
    type, extends(kemotuiki_answer), public :: kemotuiki_order_answer
        integer :: images
    end type
    type, extends(kemotuiki_answer), public :: kemotuiki_rows_answer
        integer :: rows
    end type
    type, extends(kemotuiki_answer), public :: kemotuiki_levels_answer
        integer :: groups
    end type
    type, extends(kemotuiki_answer), public :: kemotuiki_path_answer
        integer :: cost
    end type
    type, extends(kemotuiki_answer), public :: kemotuiki_comparison_answer
        integer :: inner_first, inner_second, common, count, over
    end type
    type, extends(kemotuiki_answer), public :: kemotuiki_bytes_answer
        integer(int64) :: used
    end type
    type, extends(kemotuiki_answer), public :: kemotuiki_costs_answer
        integer :: n
        integer(int64) :: used
    end type
    type, extends(kemotuiki_answer), public :: kemotuiki_links_answer
        integer :: n, rows
        integer(int64) :: used
    end type
    type, extends(kemotuiki_answer), public :: kemotuiki_choice_answer
        integer :: chosen
        integer(int64) :: used
    end type
    type, extends(kemotuiki_answer), public :: kemotuiki_tree_answer
        integer :: n, rows
    end type
    type, extends(kemotuiki_answer), public :: kemotuiki_replay_answer
        integer :: images, rows, event
    end type
    ! What kemotuiki.h calls accepted is accepted_tables here, since accepted() is there already: whether no table was refused.
    type, extends(kemotuiki_answer), public :: kemotuiki_report_answer
        integer :: images, tables, accepted_tables, apart, sides, pairs, count_sum, largest_count
        integer(int64) :: used
    end type

    public :: kemotuiki_index, kemotuiki_order, kemotuiki_measured, kemotuiki_exact, kemotuiki_exact_grafted, kemotuiki_path
    public :: kemotuiki_upper_rows, kemotuiki_route, kemotuiki_compare, kemotuiki_consensus, kemotuiki_write_costs
    public :: kemotuiki_read_costs, kemotuiki_write_links, kemotuiki_read_links, kemotuiki_write_batch, kemotuiki_choice
    public :: kemotuiki_convert_costs, kemotuiki_convert_links, kemotuiki_write_newick, kemotuiki_read_newick, kemotuiki_replay
    public :: kemotuiki_report, kemotuiki_levels

    ! Far sides and bit positions may be of either kind. A far side that holds image 32 or a later one needs int64: as a default integer
    ! it would be negative, or not fit.
    interface kemotuiki_index
        procedure index_int32, index_int64
    end interface
    interface kemotuiki_read_costs
        procedure read_costs_int32, read_costs_int64
    end interface
    interface kemotuiki_read_links
        procedure read_links_int32, read_links_int64
    end interface

    ! The events of a trace, as numbers of images or as the bytes in which it is kept.
    interface kemotuiki_replay
        procedure replay_int32, replay_int8
    end interface

    ! The structs of kemotuiki.h by the number of their values: what all begin with, then the values. The index alone is signed.
    type, bind(c) :: signed_value
        integer(word) :: head(6)
        integer(c_int64_t) :: signed_index
    end type
    type, bind(c) :: one_value
        integer(word) :: head(6), value
    end type
    type, bind(c) :: two_values
        integer(word) :: head(6), values(2)
    end type
    type, bind(c) :: three_values
        integer(word) :: head(6), values(3)
    end type
    type, bind(c) :: five_values
        integer(word) :: head(6), values(5)
    end type
    type, bind(c) :: nine_values
        integer(word) :: head(6), values(9)
    end type

    abstract interface
        ! A cost table, and two arrays to write: far sides and costs, or member sums and heights.
        function c_reading(n, t, t_count, fars, fars_count, costs, costs_count) result(r) bind(c)
            import
            integer(word), value :: n, t_count, fars_count, costs_count
            integer(c_int32_t), intent(in) :: t(*)
            integer(c_int64_t), intent(inout) :: fars(*)
            integer(c_int32_t), intent(inout) :: costs(*)
            type(one_value) :: r
        end function
    end interface
    procedure(c_reading), bind(c, name='kemotuiki_measured') :: c_measured
    procedure(c_reading), bind(c, name='kemotuiki_exact') :: c_exact
    procedure(c_reading), bind(c, name='kemotuiki_exact_grafted') :: c_exact_grafted
    procedure(c_reading), bind(c, name='kemotuiki_levels') :: c_levels

    abstract interface
        function c_conversion(form, bytes, bytes_count, out, out_count) result(r) bind(c)
            import
            integer(word), value :: form, bytes_count, out_count
            integer(c_int8_t), intent(in) :: bytes(*)
            integer(c_int8_t), intent(inout) :: out(*)
            type(one_value) :: r
        end function
    end interface
    procedure(c_conversion), bind(c, name='kemotuiki_convert_costs') :: c_convert_costs
    procedure(c_conversion), bind(c, name='kemotuiki_convert_links') :: c_convert_links

    interface
        function c_index(n, t, t_count, s) result(r) bind(c, name='kemotuiki_index')
            import
            integer(word), value :: n, t_count
            integer(c_int32_t), intent(in) :: t(*)
            integer(c_int64_t), value :: s
            type(signed_value) :: r
        end function
        function c_order(n, t, t_count, first, last, out, out_count) result(r) bind(c, name='kemotuiki_order')
            import
            integer(word), value :: n, t_count, first, last, out_count
            integer(c_int32_t), intent(in) :: t(*)
            integer(c_int32_t), intent(inout) :: out(*)
            type(one_value) :: r
        end function
        function c_path(n, count, fars, fars_count, costs, costs_count, i, j) result(r) bind(c, name='kemotuiki_path')
            import
            integer(word), value :: n, count, fars_count, costs_count, i, j
            integer(c_int64_t), intent(in) :: fars(*)
            integer(c_int32_t), intent(in) :: costs(*)
            type(one_value) :: r
        end function
        function c_upper_rows(n, count, fars, fars_count, costs, costs_count, out, out_count) result(r) &
            bind(c, name='kemotuiki_upper_rows')
            import
            integer(word), value :: n, count, fars_count, costs_count, out_count
            integer(c_int64_t), intent(in) :: fars(*)
            integer(c_int32_t), intent(in) :: costs(*)
            integer(c_int32_t), intent(inout) :: out(*)
            type(one_value) :: r
        end function
        function c_route(n, count, fars, fars_count, costs, costs_count, i, out, out_count) result(r) &
            bind(c, name='kemotuiki_route')
            import
            integer(word), value :: n, count, fars_count, costs_count, i, out_count
            integer(c_int64_t), intent(in) :: fars(*)
            integer(c_int32_t), intent(in) :: costs(*)
            integer(c_int32_t), intent(inout) :: out(*)
            type(one_value) :: r
        end function
        function c_compare(n, first, first_count, second, second_count) result(r) bind(c, name='kemotuiki_compare')
            import
            integer(word), value :: n, first_count, second_count
            integer(c_int32_t), intent(in) :: first(*), second(*)
            type(five_values) :: r
        end function
        function c_consensus(n, number, tables, tables_count, fars, fars_count, costs, costs_count) result(r) &
            bind(c, name='kemotuiki_consensus')
            import
            integer(word), value :: n, number, tables_count, fars_count, costs_count
            integer(c_int32_t), intent(in) :: tables(*)
            integer(c_int64_t), intent(inout) :: fars(*)
            integer(c_int32_t), intent(inout) :: costs(*)
            type(one_value) :: r
        end function
        function c_replay(n, t, t_count, events, events_count, fars, fars_count, costs, costs_count) result(r) &
            bind(c, name='kemotuiki_replay')
            import
            integer(word), value :: n, t_count, events_count, fars_count, costs_count
            integer(c_int32_t), intent(in) :: t(*)
            integer(c_int8_t), intent(in) :: events(*)
            integer(c_int64_t), intent(inout) :: fars(*)
            integer(c_int32_t), intent(inout) :: costs(*)
            type(three_values) :: r
        end function
        function c_write_costs(form, n, t, t_count, out, out_count) result(r) bind(c, name='kemotuiki_write_costs')
            import
            integer(word), value :: form, n, t_count, out_count
            integer(c_int32_t), intent(in) :: t(*)
            integer(c_int8_t), intent(inout) :: out(*)
            type(one_value) :: r
        end function
        function c_read_costs(bytes, bytes_count, position, out, out_count) result(r) bind(c, name='kemotuiki_read_costs')
            import
            integer(word), value :: bytes_count, position, out_count
            integer(c_int8_t), intent(in) :: bytes(*)
            integer(c_int32_t), intent(inout) :: out(*)
            type(two_values) :: r
        end function
        function c_write_links(form, n, count, fars, fars_count, costs, costs_count, out, out_count) result(r) &
            bind(c, name='kemotuiki_write_links')
            import
            integer(word), value :: form, n, count, fars_count, costs_count, out_count
            integer(c_int64_t), intent(in) :: fars(*)
            integer(c_int32_t), intent(in) :: costs(*)
            integer(c_int8_t), intent(inout) :: out(*)
            type(one_value) :: r
        end function
        function c_read_links(bytes, bytes_count, position, fars, fars_count, costs, costs_count) result(r) &
            bind(c, name='kemotuiki_read_links')
            import
            integer(word), value :: bytes_count, position, fars_count, costs_count
            integer(c_int8_t), intent(in) :: bytes(*)
            integer(c_int64_t), intent(inout) :: fars(*)
            integer(c_int32_t), intent(inout) :: costs(*)
            type(three_values) :: r
        end function
        function c_write_batch(form, ns, ns_count, counts, counts_count, fars, fars_count, costs, costs_count, out, out_count) &
            result(r) bind(c, name='kemotuiki_write_batch')
            import
            integer(word), value :: form, ns_count, counts_count, fars_count, costs_count, out_count
            integer(c_int32_t), intent(in) :: ns(*), counts(*)
            integer(c_int64_t), intent(in) :: fars(*)
            integer(c_int32_t), intent(in) :: costs(*)
            integer(c_int8_t), intent(inout) :: out(*)
            type(one_value) :: r
        end function
        function c_choice(first, first_count, second, second_count) result(r) bind(c, name='kemotuiki_choice')
            import
            integer(word), value :: first_count, second_count
            integer(c_int8_t), intent(in) :: first(*), second(*)
            type(two_values) :: r
        end function
        function c_report(bytes, bytes_count, fars, fars_count, trees, trees_count, sums, sums_count) result(r) &
            bind(c, name='kemotuiki_report')
            import
            integer(word), value :: bytes_count, fars_count, trees_count, sums_count
            integer(c_int8_t), intent(in) :: bytes(*)
            integer(c_int64_t), intent(inout) :: fars(*), sums(*)
            integer(c_int32_t), intent(inout) :: trees(*)
            type(nine_values) :: r
        end function
        function c_write_newick(n, count, fars, fars_count, costs, costs_count, out, out_count) result(r) &
            bind(c, name='kemotuiki_write_newick')
            import
            integer(word), value :: n, count, fars_count, costs_count, out_count
            integer(c_int64_t), intent(in) :: fars(*)
            integer(c_int32_t), intent(in) :: costs(*)
            character(kind=c_char), intent(inout) :: out(*)
            type(one_value) :: r
        end function
        function c_read_newick(text, text_count, fars, fars_count, costs, costs_count) result(r) &
            bind(c, name='kemotuiki_read_newick')
            import
            integer(word), value :: text_count, fars_count, costs_count
            character(kind=c_char), intent(in) :: text(*)
            integer(c_int64_t), intent(inout) :: fars(*)
            integer(c_int32_t), intent(inout) :: costs(*)
            type(two_values) :: r
        end function
        function c_refusal_text(number, table, a, b, c, d, out, out_count) result(r) bind(c, name='kemotuiki_refusal_text')
            import
            integer(word), value :: number, table, a, b, c, d, out_count
            character(kind=c_char), intent(inout) :: out(*)
            type(one_value) :: r
        end function
    end interface

contains

    ! ---- what an answer says ----

    elemental function accepted(r)
        class(kemotuiki_answer), intent(in) :: r
        logical :: accepted
        accepted = r%number == kemotuiki_accepted
    end function

    ! What the answer says in words, with its places, and its table where it has one.
    function text(r)
        class(kemotuiki_answer), intent(in) :: r
        character(:), allocatable :: text
        character(text_bytes, c_char) :: bytes
        type(one_value) :: written
        written = c_refusal_text(int(r%number, word), r%table, r%a, r%b, r%c, r%d, bytes, len(bytes, word))
        text = bytes(:written%value - 1)
    end function

    ! ---- the calls on cost tables ----

    ! The index of the division of t with the far side s, below 0 by how far some choice of images speaks against it: from -15,999,998
    ! to 15,999,999.
    function index_int64(t, s) result(r)
        integer(int32), intent(in), contiguous :: t(:, :)
        integer(int64), intent(in) :: s
        type(kemotuiki_index_answer) :: r
        type(signed_value) :: c
        c = c_index(size(t, 1, word), t, size(t, kind=word), s)
        r = kemotuiki_index_answer(kemotuiki_answer=head(c%head), signed_index=c%signed_index)
        call place_by_rows(r, t)
    end function

    function index_int32(t, s) result(r)
        integer(int32), intent(in), contiguous :: t(:, :)
        integer(int32), intent(in) :: s
        type(kemotuiki_index_answer) :: r
        r = index_int64(t, int(s, int64))
    end function

    ! The order around the tree of t from image first to image last, into out. On a table with a wiring no ring through all images is
    ! shorter than this one, closed by the way back from last to first, whichever first and last are; where every entry is off by at
    ! most D from such a table, none is shorter by more than 4(n-3)D.
    function kemotuiki_order(t, first, last, out) result(r)
        integer(int32), intent(in), contiguous :: t(:, :)
        integer, intent(in) :: first, last
        integer(int32), intent(inout), contiguous :: out(:)
        type(kemotuiki_order_answer) :: r
        type(one_value) :: c
        c = c_order(size(t, 1, word), t, size(t, kind=word), int(first, word), int(last, word), out, size(out, kind=word))
        r = kemotuiki_order_answer(kemotuiki_answer=head(c%head), images=int(c%value))
        call place_by_rows(r, t)
    end function

    ! The measured reading of t, into fars and costs.
    function kemotuiki_measured(t, fars, costs) result(r)
        integer(int32), intent(in), contiguous :: t(:, :)
        integer(int64), intent(inout), contiguous :: fars(:)
        integer(int32), intent(inout), contiguous :: costs(:)
        type(kemotuiki_rows_answer) :: r
        r = reading(c_measured, t, fars, costs)
    end function

    ! The exact reading of t, into fars and costs.
    function kemotuiki_exact(t, fars, costs) result(r)
        integer(int32), intent(in), contiguous :: t(:, :)
        integer(int64), intent(inout), contiguous :: fars(:)
        integer(int32), intent(inout), contiguous :: costs(:)
        type(kemotuiki_rows_answer) :: r
        r = reading(c_exact, t, fars, costs)
    end function

    ! The exact reading of t by a second engine, into fars and costs: the answer of kemotuiki_exact on every argument. On a table that
    ! has a tree its time grows as n*n, that of kemotuiki_exact as n*n*n.
    function kemotuiki_exact_grafted(t, fars, costs) result(r)
        integer(int32), intent(in), contiguous :: t(:, :)
        integer(int64), intent(inout), contiguous :: fars(:)
        integer(int32), intent(inout), contiguous :: costs(:)
        type(kemotuiki_rows_answer) :: r
        r = reading(c_exact_grafted, t, fars, costs)
    end function

    function reading(c_call, t, fars, costs) result(r)
        procedure(c_reading) :: c_call
        integer(int32), intent(in), contiguous :: t(:, :)
        integer(int64), intent(inout), contiguous :: fars(:)
        integer(int32), intent(inout), contiguous :: costs(:)
        type(kemotuiki_rows_answer) :: r
        r = rows_answer(c_call(size(t, 1, word), t, size(t, kind=word), fars, size(fars, kind=word), &
                               costs, size(costs, kind=word)))
        call place_by_rows(r, t)
    end function

    ! The reading of levels of t, into members and heights: groups of images, ascending by member sum, each with its height, which is the
    ! largest entry inside it. Image i is in the group where btest(members(k), i-1). With 64 images a group that holds image 64 is negative
    ! as a signed number, and the group of all 64 is -1.
    function kemotuiki_levels(t, members, heights) result(r)
        integer(int32), intent(in), contiguous :: t(:, :)
        integer(int64), intent(inout), contiguous :: members(:)
        integer(int32), intent(inout), contiguous :: heights(:)
        type(kemotuiki_levels_answer) :: r
        type(one_value) :: c
        c = c_levels(size(t, 1, word), t, size(t, kind=word), members, size(members, kind=word), heights, size(heights, kind=word))
        r = kemotuiki_levels_answer(kemotuiki_answer=head(c%head), groups=int(c%value))
        call place_by_rows(r, t)
    end function

    ! Two tables compared by their exact readings. The disagreement, count / over, is not reduced and never above 1: it is 0 exactly
    ! when the trees have the same inner far sides, and 1 exactly when they have none in common and at least one exists; over is the
    ! inner rows of both trees, and 1 when there are none. A second table of another shape may have as many entries as the first:
    ! then C is lent none of them, and refuses its length when its turn comes.
    function kemotuiki_compare(first, second) result(r)
        integer(int32), intent(in), contiguous :: first(:, :), second(:, :)
        type(kemotuiki_comparison_answer) :: r
        type(five_values) :: c
        integer(word) :: second_count
        second_count = 0
        if (all(shape(second, word) == shape(first, word))) second_count = size(second, kind=word)
        c = c_compare(size(first, 1, word), first, size(first, kind=word), second, second_count)
        r = kemotuiki_comparison_answer(kemotuiki_answer=head(c%head), inner_first=int(c%values(1)), &
                                        inner_second=int(c%values(2)), common=int(c%values(3)), &
                                        count=int(c%values(4)), over=int(c%values(5)))
        if (r%table == 1) call place_by_rows(r, first)
        if (r%table == 2) call place_by_rows(r, second)
    end function

    ! The links that the tables of a team share, into fars and costs. Tables of another shape have a length that C refuses.
    function kemotuiki_consensus(tables, fars, costs) result(r)
        integer(int32), intent(in), contiguous :: tables(:, :, :)
        integer(int64), intent(inout), contiguous :: fars(:)
        integer(int32), intent(inout), contiguous :: costs(:)
        type(kemotuiki_rows_answer) :: r
        r = rows_answer(c_consensus(size(tables, 1, word), size(tables, 3, word), tables, size(tables, kind=word), &
                                    fars, size(fars, kind=word), costs, size(costs, kind=word)))
        if (r%table > 0) call place_by_rows(r, tables(:, :, r%table))
    end function

    ! Images leave one by one, each event being the number that one has by then: the rows of t, mended after each, into fars and costs.
    ! Where an event is refused, r%event is its number and the rows are those before it.
    function replay_int8(t, events, fars, costs) result(r)
        integer(int32), intent(in), contiguous :: t(:, :)
        integer(int8), intent(in), contiguous :: events(:)
        integer(int64), intent(inout), contiguous :: fars(:)
        integer(int32), intent(inout), contiguous :: costs(:)
        type(kemotuiki_replay_answer) :: r
        type(three_values) :: c
        c = c_replay(size(t, 1, word), t, size(t, kind=word), events, size(events, kind=word), fars, size(fars, kind=word), &
                     costs, size(costs, kind=word))
        r = kemotuiki_replay_answer(kemotuiki_answer=head(c%head), images=int(c%values(1)), rows=int(c%values(2)), &
                                    event=int(c%values(3)))
        call place_by_rows(r, t)
    end function

    ! A number that no image has is 0 as a byte, which is refused likewise. Events behind the first kemotuiki_images need not cross: as
    ! each takes one image away, one of these has been refused before.
    function replay_int32(t, events, fars, costs) result(r)
        integer(int32), intent(in), contiguous :: t(:, :)
        integer(int32), intent(in), contiguous :: events(:)
        integer(int64), intent(inout), contiguous :: fars(:)
        integer(int32), intent(inout), contiguous :: costs(:)
        type(kemotuiki_replay_answer) :: r
        integer(int8) :: bytes(kemotuiki_images)
        integer :: count
        count = int(min(size(events, kind=word), int(kemotuiki_images, word)))
        bytes(:count) = int(merge(events(:count), 0_int32, events(:count) >= 1 .and. events(:count) <= kemotuiki_images), int8)
        r = replay_int8(t, bytes(:count), fars, costs)
    end function

    ! The stored form of t, old or new, into out.
    function kemotuiki_write_costs(form, t, out) result(r)
        integer, intent(in) :: form
        integer(int32), intent(in), contiguous :: t(:, :)
        integer(int8), intent(inout), contiguous :: out(:)
        type(kemotuiki_bytes_answer) :: r
        r = bytes_answer(c_write_costs(int(form, word), size(t, 1, word), t, size(t, kind=word), out, size(out, kind=word)))
        call place_by_rows(r, t)
    end function

    ! The stored cost table at the front of bytes, which may have either form, into out in this form.
    function kemotuiki_convert_costs(form, bytes, out) result(r)
        integer, intent(in) :: form
        integer(int8), intent(in), contiguous :: bytes(:)
        integer(int8), intent(inout), contiguous :: out(:)
        type(kemotuiki_bytes_answer) :: r
        r = bytes_answer(c_convert_costs(int(form, word), bytes, size(bytes, kind=word), out, size(out, kind=word)))
    end function

    ! The stored cost table at the bit position, in either form, into t(:n, :n), which is also its room. No table has more images than
    ! kemotuiki_images.
    function read_costs_int64(bytes, position, t) result(r)
        integer(int8), intent(in), contiguous :: bytes(:)
        integer(int64), intent(in) :: position
        integer(int32), intent(inout) :: t(:, :)
        type(kemotuiki_costs_answer) :: r
        type(two_values) :: c
        integer(int32) :: entries(kemotuiki_images**2)
        integer(word) :: room
        room = min(size(t, 1, word), size(t, 2, word), int(kemotuiki_images, word))
        c = c_read_costs(bytes, size(bytes, kind=word), position, entries, room * room)
        r = kemotuiki_costs_answer(kemotuiki_answer=head(c%head), n=int(c%values(1)), used=c%values(2))
        if (r%accepted()) t(:r%n, :r%n) = reshape(entries(:r%n**2), [r%n, r%n])
    end function

    function read_costs_int32(bytes, position, t) result(r)
        integer(int8), intent(in), contiguous :: bytes(:)
        integer(int32), intent(in) :: position
        integer(int32), intent(inout) :: t(:, :)
        type(kemotuiki_costs_answer) :: r
        r = read_costs_int64(bytes, int(position, int64), t)
    end function

    ! The term report over the stored cost tables in bytes, each in either form, one after another: every inner far side that some tree
    ! has, ascending, into fars, in how many trees it is into trees, and the sum of its doubled costs into sums. A mean is two whole
    ! numbers: sums(k) over trees(k), r%count_sum over r%pairs. Where a table is refused, r%table is its number, and the figures and
    ! places are those of the tables before it.
    function kemotuiki_report(bytes, fars, trees, sums) result(r)
        integer(int8), intent(in), contiguous :: bytes(:)
        integer(int64), intent(inout), contiguous :: fars(:), sums(:)
        integer(int32), intent(inout), contiguous :: trees(:)
        type(kemotuiki_report_answer) :: r
        type(nine_values) :: c
        c = c_report(bytes, size(bytes, kind=word), fars, size(fars, kind=word), trees, size(trees, kind=word), &
                     sums, size(sums, kind=word))
        r = kemotuiki_report_answer(kemotuiki_answer=head(c%head), images=int(c%values(1)), tables=int(c%values(2)), &
                                    accepted_tables=int(c%values(3)), apart=int(c%values(4)), sides=int(c%values(5)), &
                                    pairs=int(c%values(6)), count_sum=int(c%values(7)), largest_count=int(c%values(8)), &
                                    used=c%values(9))
    end function

    ! ---- the calls on link tables ----

    ! The path cost of images i and j in the rows fars, costs over n images.
    function kemotuiki_path(n, fars, costs, i, j) result(r)
        integer, intent(in) :: n, i, j
        integer(int64), intent(in), contiguous :: fars(:)
        integer(int32), intent(in), contiguous :: costs(:)
        type(kemotuiki_path_answer) :: r
        type(one_value) :: c
        c = c_path(int(n, word), size(fars, kind=word), fars, size(fars, kind=word), costs, size(costs, kind=word), &
                   int(i, word), int(j, word))
        r = kemotuiki_path_answer(kemotuiki_answer=head(c%head), cost=int(c%value))
    end function

    ! The upper row of each row, into out.
    function kemotuiki_upper_rows(n, fars, costs, out) result(r)
        integer, intent(in) :: n
        integer(int64), intent(in), contiguous :: fars(:)
        integer(int32), intent(in), contiguous :: costs(:)
        integer(int32), intent(inout), contiguous :: out(:)
        type(kemotuiki_rows_answer) :: r
        r = rows_answer(c_upper_rows(int(n, word), size(fars, kind=word), fars, size(fars, kind=word), &
                                     costs, size(costs, kind=word), out, size(out, kind=word)))
    end function

    ! The route of image i, into out.
    function kemotuiki_route(n, fars, costs, i, out) result(r)
        integer, intent(in) :: n, i
        integer(int64), intent(in), contiguous :: fars(:)
        integer(int32), intent(in), contiguous :: costs(:)
        integer(int32), intent(inout), contiguous :: out(:)
        type(kemotuiki_rows_answer) :: r
        r = rows_answer(c_route(int(n, word), size(fars, kind=word), fars, size(fars, kind=word), &
                                costs, size(costs, kind=word), int(i, word), out, size(out, kind=word)))
    end function

    ! The stored form of the rows fars, costs over n images, old or new, into out.
    function kemotuiki_write_links(form, n, fars, costs, out) result(r)
        integer, intent(in) :: form, n
        integer(int64), intent(in), contiguous :: fars(:)
        integer(int32), intent(in), contiguous :: costs(:)
        integer(int8), intent(inout), contiguous :: out(:)
        type(kemotuiki_bytes_answer) :: r
        r = bytes_answer(c_write_links(int(form, word), int(n, word), size(fars, kind=word), fars, size(fars, kind=word), &
                                       costs, size(costs, kind=word), out, size(out, kind=word)))
    end function

    ! The stored link table at the front of bytes, which may have either form, into out in this form.
    function kemotuiki_convert_links(form, bytes, out) result(r)
        integer, intent(in) :: form
        integer(int8), intent(in), contiguous :: bytes(:)
        integer(int8), intent(inout), contiguous :: out(:)
        type(kemotuiki_bytes_answer) :: r
        r = bytes_answer(c_convert_links(int(form, word), bytes, size(bytes, kind=word), out, size(out, kind=word)))
    end function

    ! The stored link table at the bit position, in either form, into fars and costs.
    function read_links_int64(bytes, position, fars, costs) result(r)
        integer(int8), intent(in), contiguous :: bytes(:)
        integer(int64), intent(in) :: position
        integer(int64), intent(inout), contiguous :: fars(:)
        integer(int32), intent(inout), contiguous :: costs(:)
        type(kemotuiki_links_answer) :: r
        type(three_values) :: c
        c = c_read_links(bytes, size(bytes, kind=word), position, fars, size(fars, kind=word), costs, size(costs, kind=word))
        r = kemotuiki_links_answer(kemotuiki_answer=head(c%head), n=int(c%values(1)), rows=int(c%values(2)), used=c%values(3))
    end function

    function read_links_int32(bytes, position, fars, costs) result(r)
        integer(int8), intent(in), contiguous :: bytes(:)
        integer(int32), intent(in) :: position
        integer(int64), intent(inout), contiguous :: fars(:)
        integer(int32), intent(inout), contiguous :: costs(:)
        type(kemotuiki_links_answer) :: r
        r = read_links_int64(bytes, int(position, int64), fars, costs)
    end function

    ! Many link tables, all in this form, one after another into out: table k is over ns(k) images and has counts(k) rows, and the rows
    ! of all are joined in fars and costs.
    function kemotuiki_write_batch(form, ns, counts, fars, costs, out) result(r)
        integer, intent(in) :: form
        integer(int32), intent(in), contiguous :: ns(:), counts(:)
        integer(int64), intent(in), contiguous :: fars(:)
        integer(int32), intent(in), contiguous :: costs(:)
        integer(int8), intent(inout), contiguous :: out(:)
        type(kemotuiki_bytes_answer) :: r
        r = bytes_answer(c_write_batch(int(form, word), ns, size(ns, kind=word), counts, size(counts, kind=word), &
                                       fars, size(fars, kind=word), costs, size(costs, kind=word), out, size(out, kind=word)))
    end function

    ! Of two stored link tables, each in a form of its own, the one that includes the other.
    function kemotuiki_choice(first, second) result(r)
        integer(int8), intent(in), contiguous :: first(:), second(:)
        type(kemotuiki_choice_answer) :: r
        type(two_values) :: c
        c = c_choice(first, size(first, kind=word), second, size(second, kind=word))
        r = kemotuiki_choice_answer(kemotuiki_answer=head(c%head), chosen=int(c%values(1)), used=c%values(2))
    end function

    ! ---- Newick text ----

    ! The Newick text of the rows fars, costs over n images, into out(:r%used); what stands behind it stays.
    function kemotuiki_write_newick(n, fars, costs, out) result(r)
        integer, intent(in) :: n
        integer(int64), intent(in), contiguous :: fars(:)
        integer(int32), intent(in), contiguous :: costs(:)
        character(*, c_char), intent(inout) :: out
        type(kemotuiki_bytes_answer) :: r
        r = bytes_answer(c_write_newick(int(n, word), size(fars, kind=word), fars, size(fars, kind=word), &
                                        costs, size(costs, kind=word), out, len(out, word)))
    end function

    ! The link table of the Newick text, without blanks behind it, into fars and costs.
    function kemotuiki_read_newick(text, fars, costs) result(r)
        character(*, c_char), intent(in) :: text
        integer(int64), intent(inout), contiguous :: fars(:)
        integer(int32), intent(inout), contiguous :: costs(:)
        type(kemotuiki_tree_answer) :: r
        type(two_values) :: c
        c = c_read_newick(text, len(text, word), fars, size(fars, kind=word), costs, size(costs, kind=word))
        r = kemotuiki_tree_answer(kemotuiki_answer=head(c%head), n=int(c%values(1)), rows=int(c%values(2)))
    end function

    ! ---- from the structs of C ----

    pure function head(c) result(r)
        integer(word), intent(in) :: c(6)
        type(kemotuiki_answer) :: r
        r = kemotuiki_answer(number=int(c(1)), table=c(2), a=c(3), b=c(4), c=c(5), d=c(6))
    end function

    pure function rows_answer(c) result(r)
        type(one_value), intent(in) :: c
        type(kemotuiki_rows_answer) :: r
        r = kemotuiki_rows_answer(kemotuiki_answer=head(c%head), rows=int(c%value))
    end function

    pure function bytes_answer(c) result(r)
        type(one_value), intent(in) :: c
        type(kemotuiki_bytes_answer) :: r
        r = kemotuiki_bytes_answer(kemotuiki_answer=head(c%head), used=c%value)
    end function

    ! Fortran has the columns of a table one after another in memory and C its rows, so that C is lent the transpose. Only refusal 4
    ! tells them apart: it is given for both or for neither, before 5, 6, 20, 7 and 17, which name the same places of both. So where t
    ! was refused by 4, C is asked once more with t by rows; the index call looks for 4 before it looks at the far side.
    subroutine place_by_rows(r, t)
        class(kemotuiki_answer), intent(inout) :: r
        integer(int32), intent(in) :: t(:, :)
        integer(int32) :: by_rows(kemotuiki_images**2)
        type(signed_value) :: again
        if (r%number /= kemotuiki_entry_too_large) return
        by_rows(:size(t)) = reshape(transpose(t), [size(t)])
        again = c_index(size(t, 1, word), by_rows, size(t, kind=word), 0_c_int64_t)
        r%a = again%head(3)
        r%b = again%head(4)
    end subroutine

end module
