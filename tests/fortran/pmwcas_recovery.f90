! Recovery of a PMwCAS memory image, from Fortran: the C header's names with iso_c_binding.
module pmwcas_recovery
  use, intrinsic :: iso_c_binding, only: c_int64_t, c_size_t
  implicit none
  private
  public :: recovery, pmwcas_recover
  public :: pmwcas_complete, pmwcas_incomplete
  public :: pmwcas_bad_sizes, pmwcas_bad_length, pmwcas_bad_status, pmwcas_bad_body, pmwcas_bad_word, pmwcas_bad_pointer

  integer(c_int64_t), parameter :: pmwcas_complete = 0_c_int64_t
  integer(c_int64_t), parameter :: pmwcas_incomplete = 256_c_int64_t
  ! refusals: the image is untouched
  integer(c_int64_t), parameter :: pmwcas_bad_sizes = 1_c_int64_t
  integer(c_int64_t), parameter :: pmwcas_bad_length = 20_c_int64_t
  integer(c_int64_t), parameter :: pmwcas_bad_status = 21_c_int64_t
  integer(c_int64_t), parameter :: pmwcas_bad_body = 22_c_int64_t
  integer(c_int64_t), parameter :: pmwcas_bad_word = 23_c_int64_t
  integer(c_int64_t), parameter :: pmwcas_bad_pointer = 24_c_int64_t

  ! the answer (0 complete, 256 incomplete, else the refusal's number) and the steps taken
  type, bind(c) :: recovery
    integer(c_int64_t) :: answer
    integer(c_int64_t) :: steps
  end type recovery

  ! image: the words and descriptors as 64-bit integers of a little-endian machine; length: in bytes, 8*n + 112*k. The C header says the rest.
  interface
    function pmwcas_recover(n, k, image, length, allowance) bind(c, name='pmwcas_recover') result(r)
      import :: c_int64_t, c_size_t, recovery
      integer(c_int64_t), value :: n, k
      integer(c_int64_t), intent(inout) :: image(*)
      integer(c_size_t), value :: length
      integer(c_int64_t), value :: allowance
      type(recovery) :: r
    end function pmwcas_recover
  end interface
end module pmwcas_recovery
