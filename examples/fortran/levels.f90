! A room that is wired in levels: its groups with their heights, and beside each the link of the exact tree that has it on one side;
! then what is said of the same room with one entry wrong.
program levels
    use, intrinsic :: iso_fortran_env, only: int64
    use kemotuiki, only: kemotuiki_exact, kemotuiki_groups, kemotuiki_levels, kemotuiki_levels_answer, kemotuiki_rows, &
        kemotuiki_rows_answer
    implicit none
    integer, parameter :: n = 6
    ! 1 and 2 share a rack, 3 stands beside it, 4 and 5 share another, and 6 is in the next room.
    integer :: t(n, n) = reshape([ &
        0, 2, 4, 10, 10, 16,    2, 0, 4, 10, 10, 16,    4, 4, 0, 10, 10, 16, &
        10, 10, 10, 0, 2, 16,   10, 10, 10, 2, 0, 16,   16, 16, 16, 16, 16, 0], [n, n])
    integer(int64) :: members(kemotuiki_groups), fars(kemotuiki_rows)
    integer :: heights(kemotuiki_groups), costs(kemotuiki_rows), k, i
    type(kemotuiki_levels_answer) :: r
    type(kemotuiki_rows_answer) :: tree

    r = kemotuiki_levels(t, members, heights)
    tree = kemotuiki_exact(t, fars, costs)
    if (.not. (r%accepted() .and. tree%accepted())) error stop 'refused'
    do k = 1, r%groups
        write (*, '(a, i0, a, i0, a)', advance='no') 'group ', members(k), ' height ', heights(k), ': images'
        do i = 1, n
            if (btest(members(k), i - 1)) write (*, '(1x, i0)', advance='no') i
        end do
        if (k < r%groups) call print_link(members(k))
        print '(a)'
    end do
    t(2, 4) = 9
    t(4, 2) = 9
    r = kemotuiki_levels(t, members, heights)
    print '(2a)', 'with 9 for images 2 and 4: ', r%text()

contains

    ! A group with image 1 is the near side of its link, which is named by the other images; any other group is a far side.
    subroutine print_link(group)
        integer(int64), intent(in) :: group
        integer(int64) :: far
        integer :: row
        far = group
        if (btest(group, 0)) far = 2_int64**n - 1 - group
        row = findloc(fars(:tree%rows), far, 1)
        if (row == 0) error stop 'no link has this group on one side'
        write (*, '(3a, i0, a, i0)', advance='no') ', ', trim(merge('near', 'far ', btest(group, 0))), &
            ' side of link ', far, ' of cost ', costs(row)
    end subroutine
end program
