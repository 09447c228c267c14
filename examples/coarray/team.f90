! Nine images form a team, each on its own copy of the table of link costs. Every image reads its table exactly and compares its tree
! with image 1's; those that draw the same tree form team 1, the others team 2, so that no relay runs over two different trees. The
! relay of team 1 runs over the links that all its tables share: the same rows for every image, with the same costs.
program team
    use, intrinsic :: iso_fortran_env, only: int64, team_type
    use kemotuiki, only: kemotuiki_compare, kemotuiki_comparison_answer, kemotuiki_consensus, kemotuiki_exact, kemotuiki_route, &
                         kemotuiki_rows_answer
    use network, only: n, room, table_of
    implicit none
    integer :: table(n, n)[*], reference(n, n), tables(n, n, n), choices(n), costs(room), out(room), chosen, members, k
    integer(int64) :: fars(room)
    type(kemotuiki_rows_answer) :: tree, shared, route
    type(kemotuiki_comparison_answer) :: both
    type(team_type) :: relay

    if (num_images() /= n) error stop 'run with nine images'
    table = table_of(this_image())
    sync all

    chosen = 2
    tree = kemotuiki_exact(table, fars, costs)
    if (.not. tree%accepted()) then
        print '(a, i0, 2a)', 'image ', this_image(), ' has no tree: ', tree%text()
    else
        reference = table(:, :)[1]
        both = kemotuiki_compare(reference, table)
        if (.not. both%accepted()) then
            print '(a, i0, 2a)', 'image ', this_image(), ' cannot compare: ', both%text()
        else if (both%count > 0) then
            print '(3(a, i0))', 'image ', this_image(), ' draws another tree: ', both%count, ' of ', both%over
        else
            chosen = 1
        end if
    end if

    ! Every image gets the team that each image chose, and all tables.
    choices = 0
    choices(this_image()) = chosen
    call co_sum(choices)
    tables = 0
    tables(:, :, this_image()) = table
    call co_sum(tables)

    form team (chosen, relay)
    change team (relay)
        members = num_images()
    end team

    if (chosen == 1) then
        shared = kemotuiki_consensus(tables(:, :, pack([(k, k = 1, n)], choices == 1)), fars, costs)
        if (.not. shared%accepted()) error stop shared%text()
        if (this_image() == 1) print '(2(a, i0), a)', 'the team of ', members, ' shares ', shared%rows, ' links'
        route = kemotuiki_route(n, fars(:shared%rows), costs(:shared%rows), this_image(), out)
        if (.not. route%accepted()) error stop route%text()
        print '(2(a, i0), a, *(1x, i0))', 'image ', this_image(), ' in a team of ', members, ', route', out(:route%rows)
    end if

end program
