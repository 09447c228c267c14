! A term of five weeks: each week the link costs of six images are stored behind those of the weeks before, and at its end there is one
! report over all of them. In week 3 a cost was measured wrongly, so that no wiring gives the table; in week 4 images 4 and 5 stand in
! each other's racks; in week 5 the way to the third rack is slow, and needs the new form. Means are printed as two whole numbers. Then
! the last byte is lost: the last table is refused, and the report of the weeks before it is still there.
program term
    use, intrinsic :: iso_fortran_env, only: int8, int64
    use kemotuiki, only: kemotuiki_above_old_limits, kemotuiki_bytes_answer, kemotuiki_cost_bytes, kemotuiki_new_form, &
        kemotuiki_old_form, kemotuiki_report, kemotuiki_report_answer, kemotuiki_report_sides, kemotuiki_write_costs
    implicit none
    integer, parameter :: n = 6, weeks = 5
    integer(int8) :: bytes(weeks * kemotuiki_cost_bytes)
    integer(int64) :: fars(kemotuiki_report_sides), sums(kemotuiki_report_sides), count
    integer :: trees(kemotuiki_report_sides), week
    type(kemotuiki_bytes_answer) :: stored
    type(kemotuiki_report_answer) :: r

    count = 0
    do week = 1, weeks
        stored = kemotuiki_write_costs(kemotuiki_old_form, measured(week), bytes(count + 1:))
        if (stored%number == kemotuiki_above_old_limits) &
            stored = kemotuiki_write_costs(kemotuiki_new_form, measured(week), bytes(count + 1:))
        count = count + stored%used
    end do
    r = kemotuiki_report(bytes(:count), fars, trees, sums)
    if (.not. r%accepted()) error stop 'these tables can be read'
    call print_report()

    r = kemotuiki_report(bytes(:count - 1), fars, trees, sums)
    print '(a)', r%text()
    call print_report()

contains

    ! Two images in each of three racks, each one away from its switch; the ways up from the switches cost something else each week.
    pure function measured(week) result(t)
        integer, intent(in) :: week
        integer, parameter :: up(3, weeks) = reshape([5, 7, 9, 5, 8, 9, 5, 7, 9, 5, 7, 9, 5, 7, 1500000], [3, weeks])
        integer :: t(n, n), rack(n), i, j
        rack = [1, 1, 2, 2, 3, 3]
        if (week == 4) rack = [1, 1, 2, 3, 2, 3]
        do j = 1, n
            do i = 1, n
                t(i, j) = 2
                if (rack(i) /= rack(j)) t(i, j) = 2 + up(rack(i), week) + up(rack(j), week)
            end do
            t(j, j) = 0
        end do
        if (week == 3) t(1, 3) = t(1, 3) + 1
        if (week == 3) t(3, 1) = t(3, 1) + 1
    end function

    subroutine print_report()
        integer :: k
        print '(5(i0, a))', r%tables, ' tables of ', r%images, ' images in ', r%used, ' bytes: ', r%accepted_tables, &
            ' with a tree, ', r%apart, ' without'
        do k = 1, r%sides
            print '(2x, 5(a, i0))', 'far side ', fars(k), ': in ', trees(k), ' of ', r%accepted_tables, &
                ' trees, mean doubled cost ', sums(k), '/', trees(k)
        end do
        print '(2x, i0, 3(a, i0))', r%pairs, ' pairs: mean Robinson-Foulds count ', r%count_sum, '/', r%pairs, &
            ', the largest ', r%largest_count
    end subroutine

end program
