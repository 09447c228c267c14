! The uneven network of the examples: nine images, and the table of link costs that each of them has.
module network
    implicit none
    private
    integer, parameter, public :: n = 9, room = 2 * n - 3
    public :: table_of

contains

    ! Cost between two images: the racks hold images 1 to 4, 5 to 7, 8 and 9; 3 and 4 share a switch of their own.
    pure integer function cost(i, j)
        integer, intent(in) :: i, j
        integer, parameter :: own(n) = [1, 2, 1, 3, 2, 2, 1, 1, 4], rack(n) = [1, 1, 1, 1, 2, 2, 2, 3, 3], up(3) = [10, 7, 20]
        cost = 0
        if (i == j) return
        cost = own(i) + own(j)
        if (rack(i) /= rack(j)) cost = cost + up(rack(i)) + up(rack(j))
        if ((i == 3 .or. i == 4) .neqv. (j == 3 .or. j == 4)) cost = cost + 5
    end function

    ! The table of one image. Image 7 has images 4 and 5 on each other's ports; image 9 measured, and two entries are off by one.
    pure function table_of(image) result(table)
        integer, intent(in) :: image
        integer :: table(n, n), i, j, port(n)
        port = [(i, i = 1, n)]
        if (image == 7) port(4:5) = [5, 4]
        do j = 1, n
            do i = 1, n
                table(i, j) = cost(port(i), port(j))
            end do
        end do
        if (image == 9) then
            table(1, 5) = table(1, 5) + 1
            table(5, 1) = table(1, 5)
            table(2, 8) = table(2, 8) - 1
            table(8, 2) = table(2, 8)
        end if
    end function

end module
