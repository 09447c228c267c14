! Sixty-four images on a line of switches, read exactly by both engines; once more with one entry too high, and with a link that nobody
! timed: the same rows, and the same refusals.
program engines
    use, intrinsic :: iso_fortran_env, only: int64
    use kemotuiki, only: kemotuiki_exact, kemotuiki_exact_grafted, kemotuiki_images, kemotuiki_rows, kemotuiki_rows_answer
    implicit none
    integer, parameter :: n = kemotuiki_images
    integer :: t(n, n), i, j

    t = reshape([((merge(0, 2 + abs(i - j), i == j), i = 1, n), j = 1, n)], [n, n])
    call read_both()
    t(62, 64) = t(62, 64) + 1
    t(64, 62) = t(64, 62) + 1
    call read_both()
    t(5, 7) = 0
    t(7, 5) = 0
    call read_both()

contains

    ! Both readings, and what they say together.
    subroutine read_both()
        integer(int64) :: fars(kemotuiki_rows, 2)
        integer :: costs(kemotuiki_rows, 2)
        type(kemotuiki_rows_answer) :: r, s
        logical :: same

        fars = 0
        costs = 0
        r = kemotuiki_exact(t, fars(:, 1), costs(:, 1))
        s = kemotuiki_exact_grafted(t, fars(:, 2), costs(:, 2))
        same = r%text() == s%text() .and. r%rows == s%rows .and. all(fars(:, 1) == fars(:, 2)) .and. all(costs(:, 1) == costs(:, 2))
        print '(a, ", ", i0, " rows, ", a)', s%text(), s%rows, &
            trim(merge('the same by both engines', 'the engines differ      ', same))
    end subroutine

end program
