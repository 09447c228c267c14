! Two of nine images fail during a run: image 4, and then image 1. The rows and the routes of those that are left, each with the number
! that it had before; then a third event with a number that no image has any more: it is refused, and the rows before it are still there.
program leave
    use, intrinsic :: iso_fortran_env, only: int64
    use kemotuiki, only: kemotuiki_replay, kemotuiki_replay_answer, kemotuiki_route, kemotuiki_rows_answer
    implicit none
    integer, parameter :: n = 9, room = 2 * n - 3, events(3) = [4, 1, 9]
    integer, parameter :: t(n, n) = reshape([ &
        0,  3,  7,  9, 20, 20, 19, 32, 35, &
        3,  0,  8, 10, 21, 21, 20, 33, 36, &
        7,  8,  0,  4, 25, 25, 24, 37, 40, &
        9, 10,  4,  0, 27, 27, 26, 39, 42, &
       20, 21, 25, 27,  0,  4,  3, 30, 33, &
       20, 21, 25, 27,  4,  0,  3, 30, 33, &
       19, 20, 24, 26,  3,  3,  0, 29, 32, &
       32, 33, 37, 39, 30, 30, 29,  0,  5, &
       35, 36, 40, 42, 33, 33, 32,  5,  0], [n, n])
    integer(int64) :: fars(room), fars_before(room)
    integer :: costs(room), costs_before(room), route(room), i, k
    integer, allocatable :: before(:)
    type(kemotuiki_replay_answer) :: left
    type(kemotuiki_rows_answer) :: r
    logical :: same

    left = kemotuiki_replay(t, events(:2), fars, costs)
    if (.not. left%accepted()) error stop 'these images can leave'
    print '(2(a, i0), a)', 'images 4 and 1 leave: ', left%images, ' images, ', left%rows, ' rows'
    print '(*(2x, i0, a, i0))', (fars(k), ':', costs(k), k = 1, left%rows)

    ! Numbers above the one that leaves drop by one.
    before = [(i, i = 1, n)]
    do k = 1, 2
        before = [before(:events(k) - 1), before(events(k) + 1:)]
    end do
    do i = 1, left%images
        r = kemotuiki_route(left%images, fars(:left%rows), costs(:left%rows), i, route)
        print '(2(a, i0), a, *(1x, i0))', 'image ', i, ', before ', before(i), ', route:', route(:r%rows)
    end do

    fars_before = fars
    costs_before = costs
    left = kemotuiki_replay(t, events, fars, costs)
    same = all(fars(:left%rows) == fars_before(:left%rows)) .and. all(costs(:left%rows) == costs_before(:left%rows))
    print '(2(a, i0), 2a)', 'event ', left%event, ', image ', events(left%event), ': ', left%text()
    print '(2(a, i0), 2a)', 'still there: ', left%images, ' images, ', left%rows, ' rows, ', &
        trim(merge('the same    ', 'not the same', same))
end program
