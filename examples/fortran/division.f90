! Four images and measured link costs: for each way to divide them two and two, whether it is a link and by how much it misses.
program division
    use kemotuiki, only: kemotuiki_index, kemotuiki_index_answer
    implicit none
    integer, parameter :: t(4, 4) = reshape([0, 2, 3, 4,  2, 0, 4, 4,  3, 4, 0, 2,  4, 4, 2, 0], [4, 4])
    integer, parameter :: fars(3) = [12, 10, 6]
    type(kemotuiki_index_answer) :: r
    integer :: i
    do i = 1, 3
        r = kemotuiki_index(t, fars(i))
        if (.not. r%accepted()) error stop r%text()
        print '(i0, 1x, i0, 1x, a)', fars(i), r%signed_index, trim(merge('link   ', 'no link', r%signed_index > 0))
    end do
end program
