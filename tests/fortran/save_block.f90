! A SAVE block's image after a power cut: a step counter and two components of a state vector, which one swap changes together. The swap had succeeded,
! its status still dirty, when the power went; recovery brings all three to their new values.
program save_block
  use, intrinsic :: iso_c_binding, only: c_int64_t, c_size_t
  use pmwcas_recovery
  implicit none
  integer(c_int64_t), parameter :: words = 3, descriptors = 1
  integer(c_int64_t), parameter :: pointer_bit = ibset(0_c_int64_t, 62)
  integer(c_int64_t) :: image(words + 14)
  type(recovery) :: r
  integer :: i

  image = 0
  do i = 1, 3
    image(i) = ibset(pointer_bit, 63)          ! each word points to descriptor 0, dirty
  end do
  image(4) = ibset(2_c_int64_t, 63)            ! Succeeded, dirty
  image(5) = 3                                 ! three entries: address, expected, desired
  image(6:8) = [0_c_int64_t, 41_c_int64_t, 42_c_int64_t]
  image(9:11) = [1_c_int64_t, 700_c_int64_t, 710_c_int64_t]
  image(12:14) = [2_c_int64_t, 800_c_int64_t, 805_c_int64_t]

  r = pmwcas_recover(words, descriptors, image, int(8 * size(image), c_size_t), 160_c_int64_t)
  print '(a,i0,a,i0,a,3(1x,i0))', 'answer ', r%answer, ', steps ', r%steps, ', counter and state', image(1:3)
  if (r%answer /= pmwcas_complete .or. r%steps /= 8) error stop 1
  if (any(image(1:3) /= [42_c_int64_t, 710_c_int64_t, 805_c_int64_t])) error stop 2
  if (image(4) /= 0) error stop 3
end program save_block
