! A stored cost table of four images goes into the new form, and back into the same bytes. With a link that nobody timed, which versions
! before 4 stored as 0, it goes nowhere; with a cost above the old limits it stays in the new form. The refusals say where that link and
! that cost stand.
program convert
    use, intrinsic :: iso_fortran_env, only: int8
    use kemotuiki, only: kemotuiki_bytes_answer, kemotuiki_convert_costs, kemotuiki_cost_bytes, kemotuiki_new_form, &
                         kemotuiki_old_cost_bytes, kemotuiki_old_form, kemotuiki_write_costs
    implicit none
    integer :: t(4, 4) = reshape([0, 2, 4, 4,  2, 0, 4, 4,  4, 4, 0, 2,  4, 4, 2, 0], [4, 4])
    integer(int8) :: old_bytes(kemotuiki_old_cost_bytes), new_bytes(kemotuiki_cost_bytes), back(kemotuiki_old_cost_bytes)
    type(kemotuiki_bytes_answer) :: stored, converted, returned
    logical :: same

    stored = kemotuiki_write_costs(kemotuiki_old_form, t, old_bytes)
    converted = kemotuiki_convert_costs(kemotuiki_new_form, old_bytes(:stored%used), new_bytes)
    returned = kemotuiki_convert_costs(kemotuiki_old_form, new_bytes(:converted%used), back)
    same = returned%accepted() .and. returned%used == stored%used
    if (same) same = all(back(:stored%used) == old_bytes(:stored%used))
    print '(2(i0, a), a)', stored%used, ' bytes in the old form, ', converted%used, ' in the new one, and back: ', &
        trim(merge('the same    ', 'not the same', same))

    ! The last byte ends with the cost of images 3 and 4.
    old_bytes(stored%used) = 0_int8
    converted = kemotuiki_convert_costs(kemotuiki_new_form, old_bytes(:stored%used), new_bytes)
    print '(i0, 2a)', stored%used, ' bytes in the old form, and in none from now on: ', converted%text()

    t(1, 4) = 1500000
    t(4, 1) = 1500000
    stored = kemotuiki_write_costs(kemotuiki_new_form, t, new_bytes)
    returned = kemotuiki_convert_costs(kemotuiki_old_form, new_bytes(:stored%used), back)
    print '(i0, 2a)', stored%used, ' bytes in the new form, and not in the old one: ', returned%text()
end program
