! Nine images on an uneven network form a team. Each has its own copy of the table of link costs, reads it exactly, and the trees
! are compared before the team forms: one copy has two images exchanged, and one was measured and is a little off. Then the links
! that all trees of a team hold are found.
program team
    use, intrinsic :: iso_fortran_env, only: int8, int64
    use kemotuiki
    use network, only: n, room, table_of
    implicit none
    integer :: tables(n, n, n), k

    do k = 1, n
        tables(:, :, k) = table_of(k)
    end do
    call read_exactly()
    call compare_all()
    call share()
    call use_tree()
    call store()
    call choose()
    call write_both()

contains

    ! Ends the program where a call that this network gives no reason to refuse was refused.
    subroutine require(r)
        class(kemotuiki_answer), intent(in) :: r
        if (.not. r%accepted()) error stop r%text()
    end subroutine

    subroutine print_rows(fars, costs)
        integer(int64), intent(in) :: fars(:)
        integer, intent(in) :: costs(:)
        integer :: i
        print '(*(2x, i0, a, i0))', (fars(i), ':', costs(i), i = 1, size(fars))
    end subroutine

    subroutine read_exactly()
        integer(int64) :: fars(room)
        integer :: costs(room)
        type(kemotuiki_rows_answer) :: r
        print '(a)', 'each image reads its table exactly'
        do k = 1, n
            r = kemotuiki_exact(tables(:, :, k), fars, costs)
            if (r%accepted()) then
                print '(a, i0, a, i0, a)', 'image ', k, ': ', r%rows, ' rows'
            else
                print '(a, i0, 2a)', 'image ', k, ': ', r%text()
            end if
        end do
        print '(a)', 'image 9 reads what it measured'
        r = kemotuiki_measured(tables(:, :, 9), fars, costs)
        call require(r)
        call print_rows(fars(:r%rows), costs(:r%rows))
    end subroutine

    subroutine compare_all()
        type(kemotuiki_comparison_answer) :: r
        print '(a)', 'trees compared with image 1 before the team forms'
        do k = 2, n
            r = kemotuiki_compare(tables(:, :, 1), tables(:, :, k))
            if (.not. r%accepted()) then
                print '(a, i0, 2a)', 'image ', k, ': ', r%text()
            else if (r%count > 0) then
                print '(4(a, i0), a)', 'image ', k, ': differs, ', r%count, ' of ', r%over, '; ', r%common, ' in common'
            else
                print '(a, i0, a)', 'image ', k, ': the same tree'
            end if
        end do
    end subroutine

    ! The links that all nine share, and those of the eight images that have a tree.
    subroutine share()
        integer(int64) :: fars(room)
        integer :: costs(room), out(room)
        type(kemotuiki_rows_answer) :: r, route
        r = kemotuiki_consensus(tables, fars, costs)
        if (r%accepted()) then
            print '(a, i0, a)', 'links that all nine share: ', r%rows, ' rows'
        else
            print '(2a)', 'links that all nine share: ', r%text()
        end if
        r = kemotuiki_consensus(tables(:, :, :8), fars, costs)
        call require(r)
        print '(a)', 'links that images 1 to 8 share, each at its smallest cost'
        call print_rows(fars(:r%rows), costs(:r%rows))
        route = kemotuiki_route(n, fars(:r%rows), costs(:r%rows), 8, out)
        call require(route)
        print '(a, *(1x, i0))', 'route of 8 over them:', out(:route%rows)
    end subroutine

    subroutine use_tree()
        integer(int64) :: fars(room)
        integer :: costs(room), out(room), rows, last
        type(kemotuiki_rows_answer) :: tree, route, upper
        type(kemotuiki_path_answer) :: path
        type(kemotuiki_order_answer) :: order
        type(kemotuiki_index_answer) :: division, as_7
        print '(a)', "image 1's tree"
        tree = kemotuiki_exact(tables(:, :, 1), fars, costs)
        call require(tree)
        rows = tree%rows
        call print_rows(fars(:rows), costs(:rows))

        path = kemotuiki_path(n, fars(:rows), costs(:rows), 3, 8)
        call require(path)
        print '(a, i0)', 'path cost of 3 and 8: ', path%cost
        route = kemotuiki_route(n, fars(:rows), costs(:rows), 3, out)
        call require(route)
        print '(a, *(1x, i0))', 'route of 3:', out(:route%rows)
        upper = kemotuiki_upper_rows(n, fars(:rows), costs(:rows), out)
        call require(upper)
        print '(a, *(1x, i0))', 'upper rows:', out(:upper%rows)

        ! The far end, over which the ring of the listing closes: of equals maxloc gives the lowest.
        last = maxloc(tables(1, 2:, 1), dim=1) + 1
        print '(a, i0)', 'farthest from image 1: image ', last
        order = kemotuiki_order(tables(:, :, 1), 1, last, out)
        call require(order)
        print '(a, *(1x, i0))', 'order from 1 to there:', out(:order%images)
        ! How strongly a table supports a division, or how badly it fails.
        division = kemotuiki_index(tables(:, :, 1), 12)
        call require(division)
        print '(a, i0)', 'index of 3 and 4 against the others: ', division%signed_index
        as_7 = kemotuiki_index(tables(:, :, 7), 12)
        call require(as_7)
        print '(a, i0)', 'and as image 7 has it: ', as_7%signed_index
    end subroutine

    ! The cost table and, behind it, the link table, in one buffer; then both read back. Both have the old form, which every version
    ! reads; these costs are far below its limits.
    subroutine store()
        integer(int64) :: fars(room)
        integer :: costs(room), back(n, n)
        integer(int8) :: bytes(512)
        type(kemotuiki_rows_answer) :: tree
        type(kemotuiki_bytes_answer) :: first, second
        type(kemotuiki_costs_answer) :: table
        type(kemotuiki_links_answer) :: links
        tree = kemotuiki_exact(tables(:, :, 1), fars, costs)
        call require(tree)
        first = kemotuiki_write_costs(kemotuiki_old_form, tables(:, :, 1), bytes)
        call require(first)
        second = kemotuiki_write_links(kemotuiki_old_form, n, fars(:tree%rows), costs(:tree%rows), bytes(first%used + 1:))
        call require(second)
        print '(2(a, i0), a)', 'stored: ', first%used, ' bytes of costs, ', second%used, ' of links'

        table = kemotuiki_read_costs(bytes, 0, back)
        call require(table)
        if (all(back == tables(:, :, 1))) then
            print '(a)', 'read back: the same costs'
        else
            print '(a)', 'read back: not the same'
        end if
        links = kemotuiki_read_links(bytes, 8 * table%used, fars, costs)
        call require(links)
        print '(3(a, i0), a)', 'read back: ', links%n, ' images, ', links%rows, ' rows, ', links%used, ' bytes'
    end subroutine

    ! Image 1's tree against the measured one and against image 7's, each stored in a buffer: which includes the other?
    subroutine choose()
        integer(int64) :: fars(room)
        integer :: costs(room)
        integer(int8) :: mine(256), theirs(256)
        type(kemotuiki_rows_answer) :: tree
        type(kemotuiki_bytes_answer) :: first, second
        tree = kemotuiki_exact(tables(:, :, 1), fars, costs)
        call require(tree)
        first = kemotuiki_write_links(kemotuiki_old_form, n, fars(:tree%rows), costs(:tree%rows), mine)
        call require(first)

        tree = kemotuiki_measured(tables(:, :, 9), fars, costs)
        call require(tree)
        second = kemotuiki_write_links(kemotuiki_old_form, n, fars(:tree%rows), costs(:tree%rows), theirs)
        call require(second)
        call print_choice("image 1's tree and the measured one: ", mine(:first%used), theirs(:second%used))

        tree = kemotuiki_exact(tables(:, :, 7), fars, costs)
        call require(tree)
        second = kemotuiki_write_links(kemotuiki_old_form, n, fars(:tree%rows), costs(:tree%rows), theirs)
        call require(second)
        call print_choice("image 1's tree and image 7's: ", mine(:first%used), theirs(:second%used))
    end subroutine

    subroutine print_choice(which, first, second)
        character(*), intent(in) :: which
        integer(int8), intent(in), contiguous :: first(:), second(:)
        type(kemotuiki_choice_answer) :: r
        r = kemotuiki_choice(first, second)
        if (r%accepted()) then
            print '(2a, i0, a, i0, a)', which, 'table ', r%chosen, ', ', r%used, ' bytes'
        else
            print '(2a)', which, r%text()
        end if
    end subroutine

    ! Both trees in one batch: the rows of image 7's stand behind those of image 1's.
    subroutine write_both()
        integer(int64) :: fars(2 * room)
        integer :: costs(2 * room)
        integer(int8) :: bytes(512)
        type(kemotuiki_rows_answer) :: first, second
        type(kemotuiki_bytes_answer) :: batch
        integer :: rows
        first = kemotuiki_exact(tables(:, :, 1), fars, costs)
        call require(first)
        second = kemotuiki_exact(tables(:, :, 7), fars(first%rows + 1:), costs(first%rows + 1:))
        call require(second)
        rows = first%rows + second%rows
        batch = kemotuiki_write_batch(kemotuiki_old_form, [n, n], [first%rows, second%rows], fars(:rows), costs(:rows), bytes)
        call require(batch)
        print '(a, i0, a)', 'both in one batch: ', batch%used, ' bytes'
    end subroutine

end program
