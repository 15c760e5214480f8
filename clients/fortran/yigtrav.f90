! Truncated power-series maps modulo 65,521: the proved kernel from Fortran.
!
! A yt_context owns the table and the work space of one setting. A yt_series or a yt_map knows its setting and
! holds its words in the kernel's layout (yigtrav.h); all words that make sense fit a signed integer. A call that can
! go wrong has a last, optional argument `error`: where it is absent, an error ends the program, as with `stat`.
! The result of a call is changed only if the call finishes. It must not be one of the inputs; Fortran's own rule on
! aliasing says so. A context is for one call at a time.
!
! Nothing compares the interface blocks below with the library. They are those of libyigtrav.so.1, 1 being yt_interface;
! a program that is linked with that name is neither linked nor loaded with a library of another interface.
module yigtrav
   use, intrinsic :: iso_c_binding, only: c_int16_t, c_int32_t, c_int64_t, c_size_t, c_ptr, c_null_ptr, c_loc
   implicit none
   private
   public :: yt_context, yt_series, yt_map, yt_error, yt_message

   integer, parameter, public :: yt_modulus = 65521
   integer, parameter, public :: yt_interface = 1 ! YIGTRAV_VERSION_MAJOR of the header of the library
   ! Errors of this module. Numbers 1 to 9 are the kernel's refusals.
   integer, parameter, public :: yt_other_setting = 101 ! place: which argument
   integer, parameter, public :: yt_no_monomial = 102   ! exponents or position of no monomial of the setting
   integer, parameter, public :: yt_coefficient = 103   ! a coefficient that is not 0 to 65,520
   integer, parameter, public :: yt_not_open = 104      ! a context that was not opened
   integer, parameter, public :: yt_no_component = 105  ! a component that is not 1 to v

   type :: yt_error
      integer :: number = 0    ! 0: none
      integer :: argument = 0  ! refusal 7: which series or map
      integer :: component = 0 ! refusal 7: which component of it
      integer(c_int64_t) :: place = 0
   end type

   ! Not allocated, or of the wrong length: the kernel refuses it as too short.
   type :: yt_series
      integer :: n = 0, v = 0
      integer(c_int32_t), allocatable :: words(:)
   end type

   type :: yt_map
      integer :: n = 0, v = 0
      integer(c_int32_t), allocatable :: words(:)
   end type

   type :: yt_context
      integer :: n = 0     ! order
      integer :: v = 0     ! variables
      integer :: count = 0 ! N, monomials; 0: not open
      integer(c_int16_t), allocatable :: table(:)
      integer(c_int32_t), allocatable :: work(:)
   contains
      procedure :: open => context_open
      procedure :: close => context_close
      procedure :: position => context_position
      procedure :: exponents => context_exponents
      procedure :: new_series
      procedure :: new_map
      procedure :: set
      procedure :: get
      procedure :: component
      procedure :: put_component
      procedure :: sum => series_sum
      procedure :: difference => series_difference
      procedure :: multiple => series_multiple
      procedure :: product => series_product
      procedure :: derivative => series_derivative
      procedure :: bracket => series_bracket
      procedure :: substitute => map_substitute
      procedure :: compose => map_compose
      procedure :: invert => map_invert
   end type

   ! The C interface. Slices are addresses, so that one that is not allocated can be passed as null.
   public :: yigtrav_count, yigtrav_table_words, yigtrav_work_words, yigtrav_build_table, yigtrav_check_table
   interface
      function yigtrav_count(n, v) bind(c)
         import
         integer(c_int32_t), value :: n, v
         integer(c_int64_t) :: yigtrav_count
      end function
      function yigtrav_table_words(n, v) bind(c)
         import
         integer(c_int32_t), value :: n, v
         integer(c_int64_t) :: yigtrav_table_words
      end function
      function yigtrav_work_words(n, v) bind(c)
         import
         integer(c_int32_t), value :: n, v
         integer(c_int64_t) :: yigtrav_work_words
      end function
      function yigtrav_build_table(n, v, table, table_len) bind(c)
         import
         integer(c_int32_t), value :: n, v
         integer(c_int16_t) :: table(*)
         integer(c_size_t), value :: table_len
         integer(c_int64_t) :: yigtrav_build_table
      end function
      function yigtrav_check_table(n, v, table, table_len) bind(c)
         import
         integer(c_int32_t), value :: n, v
         integer(c_int16_t), intent(in) :: table(*)
         integer(c_size_t), value :: table_len
         integer(c_int64_t) :: yigtrav_check_table
      end function
      function yigtrav_multiple(n, v, c, a, a_len, r, r_len) bind(c)
         import
         integer(c_int32_t), value :: n, v, c
         type(c_ptr), value :: a, r
         integer(c_size_t), value :: a_len, r_len
         integer(c_int64_t) :: yigtrav_multiple
      end function
      function yigtrav_derivative(n, v, k, t, t_len, a, a_len, r, r_len) bind(c)
         import
         integer(c_int32_t), value :: n, v, k
         type(c_ptr), value :: t, a, r
         integer(c_size_t), value :: t_len, a_len, r_len
         integer(c_int64_t) :: yigtrav_derivative
      end function
      function yigtrav_invert(n, v, t, t_len, a, a_len, r, r_len, w, w_len) bind(c)
         import
         integer(c_int32_t), value :: n, v
         type(c_ptr), value :: t, a, r, w
         integer(c_size_t), value :: t_len, a_len, r_len, w_len
         integer(c_int64_t) :: yigtrav_invert
      end function
   end interface

   ! What several of them look like.
   abstract interface
      function of_two(n, v, a, a_len, b, b_len, r, r_len) bind(c)
         import
         integer(c_int32_t), value :: n, v
         type(c_ptr), value :: a, b, r
         integer(c_size_t), value :: a_len, b_len, r_len
         integer(c_int64_t) :: of_two
      end function
      function with_table(n, v, t, t_len, a, a_len, b, b_len, r, r_len, w, w_len) bind(c)
         import
         integer(c_int32_t), value :: n, v
         type(c_ptr), value :: t, a, b, r, w
         integer(c_size_t), value :: t_len, a_len, b_len, r_len, w_len
         integer(c_int64_t) :: with_table
      end function
   end interface
   procedure(of_two), bind(c) :: yigtrav_sum, yigtrav_difference
   procedure(with_table), bind(c) :: yigtrav_product, yigtrav_bracket, yigtrav_substitute, yigtrav_compose

contains

   ! ---- errors ----

   ! The error that an answer of the kernel says.
   pure function decode(answer) result(e)
      integer(c_int64_t), intent(in) :: answer
      type(yt_error) :: e
      e%number = int(ibits(answer, 0, 8))
      e%argument = int(ibits(answer, 8, 8))
      e%component = int(ibits(answer, 16, 8))
      if (e%number /= 0) e%place = ibits(answer, 24, 40)
   end function

   pure function at(number, place) result(e)
      integer, intent(in) :: number, place
      type(yt_error) :: e
      e%number = number
      e%place = place
   end function

   ! Hands an error to the caller, or ends the program where the caller does not ask for it.
   subroutine finish(e, error)
      type(yt_error), intent(in) :: e
      type(yt_error), intent(out), optional :: error
      character(:), allocatable :: text
      if (present(error)) then
         error = e
      else if (e%number /= 0) then
         text = yt_message(e)
         error stop text
      end if
   end subroutine

   function yt_message(e) result(text)
      type(yt_error), intent(in) :: e
      character(:), allocatable :: text
      character(120) :: buffer
      select case (e%number)
      case (0); buffer = 'no error'
      case (1); buffer = 'refusal 1: n, v or N out of range'
      case (2); write (buffer, '(a,i0,a)') 'refusal 2: slice ', e%place, ' is too short'
      case (3); buffer = 'refusal 3: variable not 1 to v'
      case (4); buffer = 'refusal 4: bracket with odd v'
      case (5); buffer = 'refusal 5: multiplier above 65,520'
      case (6); write (buffer, '(a,i0,a)') 'refusal 6: table word ', e%place, ' differs from the rule'
      case (7); write (buffer, '(a,i0,a,i0,a,i0)') 'refusal 7: argument ', e%argument, ', component ', &
            e%component, ' is not an image at word ', e%place
      case (8); write (buffer, '(a,i0,a)') 'refusal 8: component ', e%place, ' has a constant'
      case (9); buffer = 'refusal 9: linear part singular modulo 65,521'
      case (yt_other_setting); write (buffer, '(a,i0,a)') 'argument ', e%place, ' is of another setting'
      case (yt_no_monomial); buffer = 'no such monomial in this setting'
      case (yt_coefficient); buffer = 'coefficient not 0 to 65,520'
      case (yt_not_open); buffer = 'the context is not open'
      case (yt_no_component); buffer = 'component not 1 to v'
      case default; write (buffer, '(a,i0)') 'unknown error ', e%number
      end select
      text = trim(buffer)
   end function

   ! ---- contexts ----

   ! Order n, v variables. Numbers out of range, negative ones too, are refused by the kernel.
   subroutine context_open(self, n, v, error)
      class(yt_context), intent(inout) :: self
      integer, intent(in) :: n, v
      type(yt_error), intent(out), optional :: error
      type(yt_error) :: e
      call self%close()
      if (yigtrav_count(n, v) == 0) then
         call finish(at(1, 0), error)
         return
      end if
      allocate (self%table(yigtrav_table_words(n, v)), source=0_c_int16_t)
      allocate (self%work(yigtrav_work_words(n, v)), source=0_c_int32_t)
      e = decode(yigtrav_build_table(n, v, self%table, size(self%table, kind=c_size_t)))
      if (e%number == 0) then
         self%n = n
         self%v = v
         self%count = int(yigtrav_count(n, v))
      end if
      call finish(e, error)
   end subroutine

   subroutine context_close(self)
      class(yt_context), intent(inout) :: self
      if (allocated(self%table)) deallocate (self%table)
      if (allocated(self%work)) deallocate (self%work)
      self%n = 0
      self%v = 0
      self%count = 0
   end subroutine

   ! Position of the monomial with these exponents, by the table; 0 where there is none.
   pure function context_position(self, exponents) result(position)
      class(yt_context), intent(in) :: self
      integer, intent(in) :: exponents(:)
      integer :: position, half, codes, i, first, second
      position = 0
      if (self%count == 0 .or. size(exponents) /= self%v) return
      ! The order is tested before codes are added: beyond n the table leads to other monomials.
      if (any(exponents < 0 .or. exponents > self%n)) return
      if (sum(exponents) > self%n) return
      half = (self%v + 1)/2
      codes = (self%n + 1)**half
      first = 0
      do i = half, 1, -1
         first = first*(self%n + 1) + exponents(i)
      end do
      second = 0
      do i = self%v, half + 1, -1
         second = second*(self%n + 1) + exponents(i)
      end do
      position = self%table(2*self%count + first + 1) + self%table(2*self%count + codes + second + 1)
   end function

   ! Exponents of the monomial at a position; none (size 0) where there is no such position.
   pure function context_exponents(self, position) result(exponents)
      class(yt_context), intent(in) :: self
      integer, intent(in) :: position
      integer, allocatable :: exponents(:)
      integer :: half, i, first, second
      allocate (exponents(0))
      if (position < 1 .or. position > self%count) return
      half = (self%v + 1)/2
      first = self%table(position)
      second = self%table(self%count + position)
      do i = 1, self%v
         if (i <= half) then
            exponents = [exponents, mod(first, self%n + 1)]
            first = first/(self%n + 1)
         else
            exponents = [exponents, mod(second, self%n + 1)]
            second = second/(self%n + 1)
         end if
      end do
   end function

   ! ---- series and maps ----

   ! The zero series.
   pure function new_series(self) result(s)
      class(yt_context), intent(in) :: self
      type(yt_series) :: s
      s%n = self%n
      s%v = self%v
      allocate (s%words(self%count + 1), source=0_c_int32_t)
   end function

   ! The zero map.
   pure function new_map(self) result(m)
      class(yt_context), intent(in) :: self
      type(yt_map) :: m
      m%n = self%n
      m%v = self%v
      allocate (m%words(self%v*(self%count + 1)), source=0_c_int32_t)
   end function

   ! Sets the coefficient of one monomial; 0 is no entry.
   subroutine set(self, s, exponents, coefficient, error)
      class(yt_context), intent(in) :: self
      type(yt_series), intent(inout) :: s
      integer, intent(in) :: exponents(:), coefficient
      type(yt_error), intent(out), optional :: error
      type(yt_error) :: e
      integer :: position, i, m
      logical :: here
      e = checked(self, s)
      position = self%position(exponents)
      if (e%number == 0 .and. position == 0) e = at(yt_no_monomial, 0)
      if (e%number == 0 .and. (coefficient < 0 .or. coefficient >= yt_modulus)) e = at(yt_coefficient, 0)
      if (e%number /= 0) then
         call finish(e, error)
         return
      end if
      m = s%words(1)
      i = 1 ! the first entry at or after the position
      do while (i <= m)
         if (s%words(i + 1)/65536 >= position) exit
         i = i + 1
      end do
      here = .false.
      if (i <= m) here = s%words(i + 1)/65536 == position
      if (coefficient == 0) then
         if (here) then
            s%words(i + 1:m) = s%words(i + 2:m + 1)
            s%words(m + 1) = 0
            s%words(1) = m - 1
         end if
      else
         if (.not. here) then
            s%words(i + 2:m + 2) = s%words(i + 1:m + 1)
            s%words(1) = m + 1
         end if
         s%words(i + 1) = position*65536 + coefficient
      end if
      call finish(e, error)
   end subroutine

   ! The coefficient of one monomial.
   subroutine get(self, s, exponents, coefficient, error)
      class(yt_context), intent(in) :: self
      type(yt_series), intent(in) :: s
      integer, intent(in) :: exponents(:)
      integer, intent(out) :: coefficient
      type(yt_error), intent(out), optional :: error
      type(yt_error) :: e
      integer :: position, i
      coefficient = 0
      e = checked(self, s)
      position = self%position(exponents)
      if (e%number == 0 .and. position == 0) e = at(yt_no_monomial, 0)
      if (e%number == 0) then
         do i = 2, s%words(1) + 1
            if (s%words(i)/65536 == position) coefficient = mod(s%words(i), 65536)
         end do
      end if
      call finish(e, error)
   end subroutine

   ! Component k of a map, as a series of its own.
   subroutine component(self, map, k, s, error)
      class(yt_context), intent(in) :: self
      type(yt_map), intent(in) :: map
      integer, intent(in) :: k
      type(yt_series), intent(inout) :: s
      type(yt_error), intent(out), optional :: error
      type(yt_error) :: e
      e = setting(self, 1, map%n, map%v, map%words)
      if (e%number == 0 .and. (k < 1 .or. k > self%v)) e = at(yt_no_component, 0)
      if (e%number == 0 .and. length(map%words) < self%v*(self%count + 1)) e = at(2, 1)
      if (e%number == 0) then
         s%n = self%n
         s%v = self%v
         s%words = map%words((k - 1)*(self%count + 1) + 1:k*(self%count + 1))
      end if
      call finish(e, error)
   end subroutine

   ! Makes a series component k of a map.
   subroutine put_component(self, map, k, s, error)
      class(yt_context), intent(in) :: self
      type(yt_map), intent(inout) :: map
      integer, intent(in) :: k
      type(yt_series), intent(in) :: s
      type(yt_error), intent(out), optional :: error
      type(yt_error) :: e
      e = setting(self, 1, map%n, map%v, map%words)
      if (e%number == 0) e = setting(self, 2, s%n, s%v, s%words)
      if (e%number == 0 .and. (k < 1 .or. k > self%v)) e = at(yt_no_component, 0)
      if (e%number == 0 .and. length(map%words) < self%v*(self%count + 1)) e = at(2, 1)
      if (e%number == 0 .and. length(s%words) < self%count + 1) e = at(2, 2)
      if (e%number == 0) map%words((k - 1)*(self%count + 1) + 1:k*(self%count + 1)) = s%words(:self%count + 1)
      call finish(e, error)
   end subroutine

   ! ---- checks before a call ----

   pure function length(words)
      integer(c_int32_t), allocatable, intent(in) :: words(:)
      integer(c_size_t) :: length
      length = 0
      if (allocated(words)) length = size(words, kind=c_size_t)
   end function

   ! The address of a slice, null where it is empty.
   function address(words)
      integer(c_int32_t), allocatable, target, intent(in) :: words(:)
      type(c_ptr) :: address
      address = c_null_ptr
      if (length(words) > 0) address = c_loc(words)
   end function

   ! The context is open, and an argument is of its setting. One without words has none: the kernel says so.
   pure function setting(self, argument, n, v, words) result(e)
      class(yt_context), intent(in) :: self
      integer, intent(in) :: argument, n, v
      integer(c_int32_t), allocatable, intent(in) :: words(:)
      type(yt_error) :: e
      if (self%count == 0) then
         e = at(yt_not_open, 0)
      else if (allocated(words) .and. (n /= self%n .or. v /= self%v)) then
         e = at(yt_other_setting, argument)
      end if
   end function

   ! A series that entries can be looked up in: the kernel finds it an image.
   function checked(self, s) result(e)
      class(yt_context), intent(in) :: self
      type(yt_series), intent(in), target :: s
      type(yt_error) :: e
      integer(c_int32_t), allocatable, target :: copy(:)
      e = setting(self, 1, s%n, s%v, s%words)
      if (e%number /= 0) return
      allocate (copy(self%count + 1))
      e = decode(yigtrav_multiple(self%n, self%v, 1, address(s%words), length(s%words), address(copy), length(copy)))
   end function

   ! ---- operations ----

   ! A finished call's words become the result.
   subroutine keep_series(self, e, words, r)
      class(yt_context), intent(in) :: self
      type(yt_error), intent(in) :: e
      integer(c_int32_t), allocatable, intent(inout) :: words(:)
      type(yt_series), intent(inout) :: r
      if (e%number /= 0) return
      r%n = self%n
      r%v = self%v
      call move_alloc(words, r%words)
   end subroutine

   subroutine keep_map(self, e, words, r)
      class(yt_context), intent(in) :: self
      type(yt_error), intent(in) :: e
      integer(c_int32_t), allocatable, intent(inout) :: words(:)
      type(yt_map), intent(inout) :: r
      if (e%number /= 0) return
      r%n = self%n
      r%v = self%v
      call move_alloc(words, r%words)
   end subroutine

   ! A call of two series without a table.
   subroutine combine(self, operation, a, b, r, error)
      class(yt_context), intent(in) :: self
      procedure(of_two) :: operation
      type(yt_series), intent(in), target :: a, b
      type(yt_series), intent(inout) :: r
      type(yt_error), intent(out), optional :: error
      type(yt_error) :: e
      integer(c_int32_t), allocatable, target :: words(:)
      e = setting(self, 1, a%n, a%v, a%words)
      if (e%number == 0) e = setting(self, 2, b%n, b%v, b%words)
      if (e%number == 0) then
         allocate (words(self%count + 1))
         e = decode(operation(self%n, self%v, address(a%words), length(a%words), address(b%words), &
                              length(b%words), address(words), length(words)))
         call keep_series(self, e, words, r)
      end if
      call finish(e, error)
   end subroutine

   subroutine series_sum(self, a, b, r, error)
      class(yt_context), intent(in) :: self
      type(yt_series), intent(in), target :: a, b
      type(yt_series), intent(inout) :: r
      type(yt_error), intent(out), optional :: error
      call combine(self, yigtrav_sum, a, b, r, error)
   end subroutine

   subroutine series_difference(self, a, b, r, error)
      class(yt_context), intent(in) :: self
      type(yt_series), intent(in), target :: a, b
      type(yt_series), intent(inout) :: r
      type(yt_error), intent(out), optional :: error
      call combine(self, yigtrav_difference, a, b, r, error)
   end subroutine

   ! c times a.
   subroutine series_multiple(self, c, a, r, error)
      class(yt_context), intent(in) :: self
      integer, intent(in) :: c
      type(yt_series), intent(in), target :: a
      type(yt_series), intent(inout) :: r
      type(yt_error), intent(out), optional :: error
      type(yt_error) :: e
      integer(c_int32_t), allocatable, target :: words(:)
      e = setting(self, 1, a%n, a%v, a%words)
      if (e%number == 0) then
         allocate (words(self%count + 1))
         e = decode(yigtrav_multiple(self%n, self%v, c, address(a%words), length(a%words), address(words), &
                                     length(words)))
         call keep_series(self, e, words, r)
      end if
      call finish(e, error)
   end subroutine

   ! A call of two arguments with the table and work space; `words` is to be the result.
   function answer_of(self, operation, a, b, words) result(answer)
      class(yt_context), intent(inout), target :: self
      procedure(with_table) :: operation
      integer(c_int32_t), allocatable, intent(in), target :: a(:), b(:)
      integer(c_int32_t), allocatable, intent(inout), target :: words(:)
      integer(c_int64_t) :: answer
      answer = operation(self%n, self%v, c_loc(self%table), size(self%table, kind=c_size_t), address(a), length(a), &
                         address(b), length(b), address(words), length(words), address(self%work), length(self%work))
   end function

   ! pairs: the pairs of entries that were multiplied, 0 where the call is refused.
   subroutine series_product(self, a, b, r, pairs, error)
      class(yt_context), intent(inout), target :: self
      type(yt_series), intent(in), target :: a, b
      type(yt_series), intent(inout) :: r
      integer(c_int64_t), intent(out), optional :: pairs
      type(yt_error), intent(out), optional :: error
      type(yt_error) :: e
      integer(c_int32_t), allocatable, target :: words(:)
      integer(c_int64_t) :: answer
      if (present(pairs)) pairs = 0
      e = setting(self, 1, a%n, a%v, a%words)
      if (e%number == 0) e = setting(self, 2, b%n, b%v, b%words)
      if (e%number == 0) then
         allocate (words(self%count + 1))
         answer = answer_of(self, yigtrav_product, a%words, b%words, words)
         e = decode(answer)
         if (e%number == 0 .and. present(pairs)) pairs = ibits(answer, 24, 40)
         call keep_series(self, e, words, r)
      end if
      call finish(e, error)
   end subroutine

   ! In variable xk.
   subroutine series_derivative(self, k, a, r, error)
      class(yt_context), intent(in), target :: self
      integer, intent(in) :: k
      type(yt_series), intent(in), target :: a
      type(yt_series), intent(inout) :: r
      type(yt_error), intent(out), optional :: error
      type(yt_error) :: e
      integer(c_int32_t), allocatable, target :: words(:)
      e = setting(self, 1, a%n, a%v, a%words)
      if (e%number == 0) then
         allocate (words(self%count + 1))
         e = decode(yigtrav_derivative(self%n, self%v, k, c_loc(self%table), size(self%table, kind=c_size_t), &
                                       address(a%words), length(a%words), address(words), length(words)))
         call keep_series(self, e, words, r)
      end if
      call finish(e, error)
   end subroutine

   subroutine series_bracket(self, a, b, r, error)
      class(yt_context), intent(inout), target :: self
      type(yt_series), intent(in), target :: a, b
      type(yt_series), intent(inout) :: r
      type(yt_error), intent(out), optional :: error
      type(yt_error) :: e
      integer(c_int32_t), allocatable, target :: words(:)
      e = setting(self, 1, a%n, a%v, a%words)
      if (e%number == 0) e = setting(self, 2, b%n, b%v, b%words)
      if (e%number == 0) then
         allocate (words(self%count + 1))
         e = decode(answer_of(self, yigtrav_bracket, a%words, b%words, words))
         call keep_series(self, e, words, r)
      end if
      call finish(e, error)
   end subroutine

   ! The series a with component i of the map put in for xi.
   subroutine map_substitute(self, a, map, r, error)
      class(yt_context), intent(inout), target :: self
      type(yt_series), intent(in), target :: a
      type(yt_map), intent(in), target :: map
      type(yt_series), intent(inout) :: r
      type(yt_error), intent(out), optional :: error
      type(yt_error) :: e
      integer(c_int32_t), allocatable, target :: words(:)
      e = setting(self, 1, a%n, a%v, a%words)
      if (e%number == 0) e = setting(self, 2, map%n, map%v, map%words)
      if (e%number == 0) then
         allocate (words(self%count + 1))
         e = decode(answer_of(self, yigtrav_substitute, a%words, map%words, words))
         call keep_series(self, e, words, r)
      end if
      call finish(e, error)
   end subroutine

   ! The inner map substituted into each component of the outer one.
   subroutine map_compose(self, outer, inner, r, error)
      class(yt_context), intent(inout), target :: self
      type(yt_map), intent(in), target :: outer, inner
      type(yt_map), intent(inout) :: r
      type(yt_error), intent(out), optional :: error
      type(yt_error) :: e
      integer(c_int32_t), allocatable, target :: words(:)
      e = setting(self, 1, outer%n, outer%v, outer%words)
      if (e%number == 0) e = setting(self, 2, inner%n, inner%v, inner%words)
      if (e%number == 0) then
         allocate (words(self%v*(self%count + 1)))
         e = decode(answer_of(self, yigtrav_compose, outer%words, inner%words, words))
         call keep_map(self, e, words, r)
      end if
      call finish(e, error)
   end subroutine

   subroutine map_invert(self, map, r, error)
      class(yt_context), intent(inout), target :: self
      type(yt_map), intent(in), target :: map
      type(yt_map), intent(inout) :: r
      type(yt_error), intent(out), optional :: error
      type(yt_error) :: e
      integer(c_int32_t), allocatable, target :: words(:)
      e = setting(self, 1, map%n, map%v, map%words)
      if (e%number == 0) then
         allocate (words(self%v*(self%count + 1)))
         e = decode(yigtrav_invert(self%n, self%v, c_loc(self%table), size(self%table, kind=c_size_t), &
                                   address(map%words), length(map%words), address(words), length(words), &
                                   address(self%work), length(self%work)))
         call keep_map(self, e, words, r)
      end if
      call finish(e, error)
   end subroutine
end module
