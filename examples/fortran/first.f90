! Reads a table of four images exactly, and prints the far side and the doubled cost of each link, or why no tree has these costs.
program first
    use, intrinsic :: iso_fortran_env, only: int64
    use kemotuiki, only: kemotuiki_exact, kemotuiki_rows, kemotuiki_rows_answer
    implicit none
    integer, parameter :: t(4, 4) = reshape([0, 2, 4, 4,  2, 0, 4, 4,  4, 4, 0, 2,  4, 4, 2, 0], [4, 4])
    integer(int64) :: fars(kemotuiki_rows)
    integer :: costs(kemotuiki_rows), i
    type(kemotuiki_rows_answer) :: r

    r = kemotuiki_exact(t, fars, costs)
    if (r%accepted()) then
        print '(i0, 1x, i0)', (fars(i), costs(i), i = 1, r%rows)
    else
        print '(a)', r%text()
    end if
end program
