! Prints the numbers in the messages of a file, with their descriptors.
!
!     gfortran print_numbers.f90 -lbufr -o print_numbers && ./print_numbers TABLE_B TABLE_D FILE
module bufr
  use, intrinsic :: iso_c_binding
  implicit none

  integer(c_int32_t), parameter :: done = 0, no_room = 74
  integer(c_int8_t), parameter :: kind_of_number = 1

  type, bind(c) :: bufr_input
    type(c_ptr) :: octets
    integer(c_size_t) :: octets_length
    type(c_ptr) :: table_b
    integer(c_size_t) :: table_b_length
    type(c_ptr) :: table_d
    integer(c_size_t) :: table_d_length
    type(c_ptr) :: wanted
    integer(c_size_t) :: wanted_length
    integer(c_int64_t) :: form = 0, reserved(7) = 0
  end type

  type, bind(c) :: bufr_item
    integer(c_int64_t) :: value
    integer(c_int32_t) :: message, length
    integer(c_int16_t) :: subset, fxy, scale
    integer(c_int8_t) :: kind, reserved
  end type

  type, bind(c) :: bufr_message
    integer(c_int64_t) :: offset, length
    integer(c_size_t) :: first, items
    integer(c_int16_t) :: centre, subcentre, year, subsets
    integer(c_int8_t) :: fault, edition, master, update, category, subcategory, local_subcategory
    integer(c_int8_t) :: master_version, local_version, month, day, hour, minute, second, observed, compressed
    integer(c_int64_t) :: reserved
  end type

  type, bind(c) :: bufr_rows
    type(c_ptr) :: items
    integer(c_size_t) :: items_room
    type(c_ptr) :: texts
    integer(c_size_t) :: texts_room
    type(c_ptr) :: messages
    integer(c_size_t) :: messages_room
    integer(c_int64_t) :: reserved(2) = 0
  end type

  type, bind(c) :: bufr_counts
    integer(c_size_t) :: at = 0, items = 0, octets = 0, messages = 0
    integer(c_size_t) :: items_needed = 0, octets_needed = 0, messages_needed = 0
    integer(c_int64_t) :: reserved = 0
  end type

  interface
    function bufr_items(input, rows, counts) bind(c) result(status)
      import
      type(bufr_input), intent(in) :: input
      type(bufr_rows), intent(in) :: rows
      type(bufr_counts), intent(inout) :: counts
      integer(c_int32_t) :: status
    end function
  end interface

contains

  ! Reads the file that the given argument names.
  subroutine read_contents(word, octets)
    integer, intent(in) :: word
    integer(c_int8_t), allocatable, intent(out) :: octets(:)
    character(4096) :: name
    integer :: unit, size
    call get_command_argument(word, name)
    open (newunit=unit, file=trim(name), access='stream', form='unformatted', status='old', action='read')
    inquire (unit=unit, size=size)
    allocate (octets(size))
    read (unit) octets
    close (unit)
  end subroutine

  ! Returns value / 10**scale exactly, as text.
  function decimal(value, scale) result(text)
    integer(c_int64_t), intent(in) :: value
    integer, intent(in) :: scale
    character(:), allocatable :: text
    character(64) :: digits
    integer :: point
    if (scale <= 0) then
      write (digits, '(i0)') value
      text = trim(digits)
      if (value /= 0) text = text // repeat('0', -scale)
      return
    end if
    write (digits, '(i0)') abs(value)
    text = trim(digits)
    if (len(text) <= scale) text = repeat('0', scale + 1 - len(text)) // text
    point = len(text) - scale
    text = text(:point) // '.' // text(point + 1:)
    if (value < 0) text = '-' // text
  end function
end module

program print_numbers
  use, intrinsic :: iso_fortran_env, only: error_unit
  use bufr
  implicit none
  integer(c_int8_t), allocatable, target :: stream(:), table_b(:), table_d(:)
  integer(c_int16_t), target :: all(1) = 0
  type(bufr_input) :: input
  type(bufr_item), allocatable, target :: items(:)
  integer(c_int8_t), allocatable, target :: texts(:)
  type(bufr_message), target :: messages(256)
  type(bufr_rows) :: rows
  type(bufr_counts) :: counts
  integer(c_int32_t) :: status
  integer(c_size_t) :: at
  integer :: fxy

  call read_contents(1, table_b)
  call read_contents(2, table_d)
  call read_contents(3, stream)
  input = bufr_input(c_loc(stream), size(stream, kind=c_size_t), c_loc(table_b), size(table_b, kind=c_size_t), &
    c_loc(table_d), size(table_d, kind=c_size_t), c_loc(all), 0_c_size_t)
  allocate (items(65536), texts(65536))
  do
    ! Each call continues at counts%at, where the previous call stopped.
    rows = bufr_rows(c_loc(items), size(items, kind=c_size_t), c_loc(texts), size(texts, kind=c_size_t), &
      c_loc(messages), size(messages, kind=c_size_t))
    status = bufr_items(input, rows, counts)
    do at = 1, counts%items
      if (items(at)%kind /= kind_of_number) cycle
      fxy = iand(int(items(at)%fxy), 65535)
      print '(i1, i2.2, i3.3, 1x, a)', ishft(fxy, -14), iand(ishft(fxy, -8), 63), iand(fxy, 255), &
        decimal(items(at)%value, int(items(at)%scale))
    end do
    do at = 1, counts%messages
      if (messages(at)%fault == 0) cycle
      write (error_unit, '(a, i0, a, i0)') 'offset ', messages(at)%offset, ': fault ', messages(at)%fault
    end do
    if (status /= no_room) exit
    ! The next message may need more room than there is.
    if (counts%items_needed > size(items)) then
      deallocate (items)
      allocate (items(counts%items_needed))
    end if
    if (counts%octets_needed > size(texts)) then
      deallocate (texts)
      allocate (texts(counts%octets_needed))
    end if
  end do
  deallocate (items, texts, stream, table_b, table_d)
  if (status /= done) error stop 'the call failed'
end program
