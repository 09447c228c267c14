! The tree of nine images as Newick text, which tools that draw trees take; the text read back, which gives the same rows; and what is
! said of a text in which two siblings have changed places.
program newick
    use, intrinsic :: iso_fortran_env, only: int64
    use kemotuiki, only: kemotuiki_bytes_answer, kemotuiki_exact_grafted, kemotuiki_newick_bytes, kemotuiki_read_newick, &
                         kemotuiki_rows_answer, kemotuiki_tree_answer, kemotuiki_write_newick
    implicit none
    integer, parameter :: n = 9, room = 2 * n - 3
    character(*), parameter :: swapped = '(1:2,3:2,2:4,4:6);'
    integer, parameter :: t(n, n) = reshape([ &
        0,  3,  7,  9, 20, 20, 19, 32, 35, &
        3,  0,  8, 10, 21, 21, 20, 33, 36, &
        7,  8,  0,  4, 25, 25, 24, 37, 40, &
        9, 10,  4,  0, 27, 27, 26, 39, 42, &
       20, 21, 25, 27,  0,  4,  3, 30, 33, &
       20, 21, 25, 27,  4,  0,  3, 30, 33, &
       19, 20, 24, 26,  3,  3,  0, 29, 32, &
       32, 33, 37, 39, 30, 30, 29,  0,  5, &
       35, 36, 40, 42, 33, 33, 32,  5,  0], [n, n])
    integer(int64) :: fars(room), fars_read(room)
    integer :: costs(room), costs_read(room)
    character(kemotuiki_newick_bytes) :: text
    type(kemotuiki_rows_answer) :: tree
    type(kemotuiki_bytes_answer) :: written
    type(kemotuiki_tree_answer) :: back
    logical :: same

    tree = kemotuiki_exact_grafted(t, fars, costs)
    written = kemotuiki_write_newick(n, fars(:tree%rows), costs(:tree%rows), text)
    if (.not. written%accepted()) error stop 'this table has a tree'
    print '(a)', text(:written%used)

    back = kemotuiki_read_newick(text(:written%used), fars_read, costs_read)
    same = back%n == n .and. back%rows == tree%rows
    if (same) same = all(fars_read(:back%rows) == fars(:back%rows)) .and. all(costs_read(:back%rows) == costs(:back%rows))
    print '(3(i0, a), a)', written%used, ' bytes, and read back: ', back%n, ' images, ', back%rows, ' rows, ', &
        trim(merge('the same    ', 'not the same', same))

    back = kemotuiki_read_newick(swapped, fars_read, costs_read)
    print '(3a)', swapped, ' ', back%text()
end program
