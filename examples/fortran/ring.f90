! A ring for a barrier. Twelve images are dealt out to three boards, 1 to the first, 2 to the second, 3 to the third, 4 to the first
! again; a message costs 2 within a board and 20 between two. In the order around the tree each board is one run, and no ring costs
! less. From timings that are off by 1 each board still is one run. On a line such timings may do harm, 4 for each image but three.
program ring
    use kemotuiki, only: kemotuiki_order, kemotuiki_order_answer
    implicit none
    integer, parameter :: n = 12
    integer, parameter :: place(n) = [1, 2, 3, 4, 5, 6, 7, 8, 9, 10, 1, 10]
    integer :: wired(n, n), timed(n, n), order(n), i, j
    wired = 0
    timed = 0
    do i = 1, n
        do j = i + 1, n
            call put(i, j, merge(2, 20, mod(j - i, 3) == 0), mod(2 * i + j + i * j, 3) - 1)
        end do
    end do
    call say('by number', [(i, i = 1, n)])
    call around(wired, 1, 2)
    call say('order', order)
    call around(timed, 1, 2)
    call say('order by timings', order)

    ! Ten images at the places 1 to 10 of a line, image 11 at the place 1 too, and image 12 at 10.
    do i = 1, n
        do j = i + 1, n
            call put(i, j, 2 + 2 * abs(place(i) - place(j)), merge(1, -1, i <= 10 .and. j > 10))
        end do
    end do
    call around(timed, 12, 1)
    call say('line, order by timings', order)
    order(:2) = order([2, 1])
    call say('line, two exchanged', order)

contains

    ! The entry of images i and j in both tables, both ways; its timing is off by so much.
    subroutine put(i, j, cost, off)
        integer, intent(in) :: i, j, cost, off
        wired(i, j) = cost
        wired(j, i) = cost
        timed(i, j) = cost + off
        timed(j, i) = cost + off
    end subroutine

    ! The order of t from first to last.
    subroutine around(t, first, last)
        integer, intent(in) :: t(:, :), first, last
        type(kemotuiki_order_answer) :: r
        r = kemotuiki_order(t, first, last, order)
        if (.not. r%accepted()) error stop r%text()
    end subroutine

    ! A ring, and what it costs as the images are wired.
    subroutine say(name, images)
        character(*), intent(in) :: name
        integer, intent(in) :: images(n)
        integer :: i
        print '(a, 12(1x, i0), a, i0)', name, images, ' costs ', sum([(wired(images(i), images(mod(i, n) + 1)), i = 1, n)])
    end subroutine
end program
