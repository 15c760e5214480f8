! The samples of the rules through the module, and bad use: every mistake must come back as an error and leave the
! result as it was. The last line is 'N passed, M failed'. With the argument 'stop' it makes a mistake without asking
! for the error, which must end the program.
program test
   use, intrinsic :: iso_fortran_env, only: int16, int32, int64
   use, intrinsic :: iso_c_binding, only: c_size_t
   use yigtrav
   implicit none
   integer :: passed = 0, failed = 0
   character(8) :: argument

   call get_command_argument(1, argument)
   if (argument == 'stop') call unasked()
   call positions()
   call products()
   call brackets_and_maps()
   call inversions()
   call tables()
   call wrong_lengths()
   call other_settings()
   call numbers()
   call refused_maps()
   print '(i0,a,i0,a)', passed, ' passed, ', failed, ' failed'
   if (failed > 0) stop 1

contains

   subroutine record(good, label)
      logical, intent(in) :: good
      character(*), intent(in) :: label
      if (good) then
         passed = passed + 1
      else
         failed = failed + 1
         print '(2a)', 'FAILED ', label
      end if
   end subroutine

   logical function is(e, number, place)
      type(yt_error), intent(in) :: e
      integer, intent(in) :: number, place
      is = e%number == number .and. e%place == place .and. e%argument == 0 .and. e%component == 0
   end function

   ! The series with these terms: exponents and coefficient, one after the other.
   function series(c, terms) result(s)
      type(yt_context), intent(in) :: c
      integer, intent(in) :: terms(:)
      type(yt_series) :: s
      integer :: i
      s = c%new_series()
      do i = 1, size(terms), c%v + 1
         call c%set(s, terms(i:i + c%v - 1), terms(i + c%v))
      end do
   end function

   function map(c, first, second) result(m)
      type(yt_context), intent(in) :: c
      integer, intent(in) :: first(:)
      integer, intent(in), optional :: second(:)
      type(yt_map) :: m
      m = c%new_map()
      call c%put_component(m, 1, series(c, first))
      if (present(second)) call c%put_component(m, 2, series(c, second))
   end function

   logical function same(words, expected)
      integer(int32), intent(in) :: words(:), expected(:)
      same = size(words) == size(expected)
      if (same) same = all(words == expected)
   end function

   logical function same_map(a, b)
      type(yt_map), intent(in) :: a, b
      same_map = a%n == b%n .and. a%v == b%v .and. same(a%words, b%words)
   end function

   ! ---- the samples ----

   subroutine positions()
      type(yt_context) :: c
      integer :: i
      logical :: back
      call c%open(2, 2)
      call record(c%position([1, 1]) == 5, 'n 2, v 2: x1 x2 at 5')
      call c%open(2, 4)
      call record(c%position([1, 1, 0, 0]) == 5, 'n 2, v 4: x1 x2 at 5')
      call record(c%position([0, 2, 0, 0]) == 6, 'n 2, v 4: x2^2 at 6')
      call record(c%position([0, 0, 1, 0]) == 7, 'n 2, v 4: x3 at 7')
      call record(same(int(c%table(31:39), int32), [1, 2, 4, 3, 5, 0, 6, 0, 0]), 'n 2, v 4: D1')
      call record(same(int(c%table(40:48), int32), [0, 6, 9, 10, 13, 0, 14, 0, 0]), 'n 2, v 4: D2')
      back = .true.
      do i = 1, c%count
         back = back .and. c%position(c%exponents(i)) == i
      end do
      call record(back, 'n 2, v 4: from each position to the exponents and back')
      call c%open(10, 6)
      call record(c%count == 8008, 'n 10, v 6 builds')
      call record(yigtrav_count(8, 7) == 6435 .and. yigtrav_count(7, 8) == 6435, 'counts of n 8, v 7 and n 7, v 8')
   end subroutine

   subroutine products()
      type(yt_context) :: c
      type(yt_series) :: a, b, r
      integer(int64) :: pairs
      call c%open(2, 1)
      a = series(c, [0, 1, 1, 1])
      b = series(c, [0, 1, 1, 65520])
      call c%product(a, a, r, pairs)
      call record(pairs == 4 .and. same(r%words, [3, 65537, 131074, 196609]), 'n 2, v 1: (1 + x)(1 + x), 4 pairs')
      call c%product(a, b, r)
      call record(same(r%words, [2, 65537, 3*65536 + 65520, 0]), 'n 2, v 1: (1 + x)(1 + 65,520 x) has no entry for x')
      call c%sum(a, b, r)
      call record(same(r%words, [1, 65538, 0, 0]), 'sum cancels x')
      call c%difference(a, b, r)
      call record(same(r%words, [1, 131074, 0, 0]), 'difference cancels 1')
      call c%multiple(65520, a, r)
      call record(same(r%words, [2, 65536 + 65520, 2*65536 + 65520, 0]), 'multiple by 65,520')
      call c%multiple(0, a, r)
      call record(same(r%words, [0, 0, 0, 0]), 'multiple by 0')
      call c%open(1, 1)
      a = series(c, [0, 1, 1, 1])
      b = series(c, [1, 1])
      call c%product(a, a, r, pairs)
      call record(pairs == 3 .and. same(r%words, [2, 65537, 131074]), 'n 1, v 1: (1 + x)(1 + x), 3 pairs')
      call c%product(b, b, r, pairs)
      call record(pairs == 0 .and. same(r%words, [0, 0, 0]), 'n 1, v 1: x x is zero, 0 pairs')
   end subroutine

   subroutine brackets_and_maps()
      type(yt_context) :: c
      type(yt_series) :: a, b, r, expected
      call c%open(2, 2)
      a = series(c, [2, 0, 1])
      b = series(c, [0, 2, 1])
      call c%derivative(1, a, r)
      expected = series(c, [1, 0, 2])
      call record(same(r%words, expected%words), 'derivative of x1^2')
      call c%bracket(a, b, r)
      call record(same(r%words, [1, 5*65536 + 4, 0, 0, 0, 0, 0]), 'bracket of x1^2 and x2^2')
      call c%substitute(a, map(c, [1, 0, 1, 0, 1, 1], [0, 1, 1]), r)
      expected = series(c, [0, 2, 1, 1, 1, 2, 2, 0, 1])
      call record(same(r%words, expected%words), 'x1^2 with (x1 + x2, x2)')
   end subroutine

   subroutine inversions()
      type(yt_context) :: c
      type(yt_map) :: f, g, h
      type(yt_error) :: e
      call c%open(2, 1)
      call c%invert(map(c, [1, 2, 2, 3]), g)
      call record(same(g%words, [2, 2*65536 + 32761, 3*65536 + 24570, 0]), '2x + 3x^2 inverted')
      call c%open(2, 2)
      f = map(c, [1, 0, 1, 0, 2, 1], [0, 1, 1])
      call c%invert(f, g)
      call record(same_map(g, map(c, [1, 0, 1, 0, 2, 65520], [0, 1, 1])), '(x1 + x2^2, x2) inverted')
      call c%compose(f, g, h)
      call record(same_map(h, map(c, [1, 0, 1], [0, 1, 1])), 'composed with its inverse: the identity')
      h = g
      call c%invert(map(c, [1, 0, 256, 0, 1, 15], [1, 0, 1, 0, 1, 256]), g, e)
      call record(is(e, 9, 0) .and. same_map(g, h), 'determinant 65,521 is refused 9, the result unchanged')
      call c%invert(map(c, [1, 0, 256, 0, 1, 14], [1, 0, 1, 0, 1, 256]), g, e)
      call record(is(e, 0, 0) .and. same_map(g, map(c, [1, 0, 256, 0, 1, 65507], [1, 0, 65520, 0, 1, 256])), &
                  'determinant 65,522 is inverted')
   end subroutine

   ! The examples of refusals 2 and 6, straight through the interface.
   subroutine tables()
      integer(int16) :: table(18), swap
      call record(yigtrav_build_table(2, 2, table, 17_c_size_t) == 2 + 2**24, 'table of 17 words is refused 2 at 1')
      call record(yigtrav_build_table(2, 2, table, 18_c_size_t) == 0, 'table of 18 words')
      swap = table(14)
      table(14) = table(15)
      table(15) = swap
      call record(yigtrav_check_table(2, 2, table, 18_c_size_t) == 6 + 13*2**24, 'words 13 and 14 exchanged: 6 at 13')
   end subroutine

   ! ---- bad use ----

   subroutine wrong_lengths()
      type(yt_context) :: c, closed
      type(yt_series) :: a, r, short, unset, bad
      type(yt_map) :: f, g
      type(yt_error) :: e
      integer :: coefficient
      call c%open(2, 2)
      a = series(c, [1, 0, 1])
      r = series(c, [0, 1, 7])
      short = a
      short%words = short%words(:6)
      call c%sum(short, a, r, e)
      call record(is(e, 2, 1), 'a series of 6 words')
      call c%product(a, short, r, error=e)
      call record(is(e, 2, 3), 'a second factor of 6 words')
      call c%sum(a, unset, r, e)
      call record(is(e, 2, 2), 'a series that is not allocated')
      short%words = short%words(:0)
      call c%derivative(1, short, r, e)
      call record(is(e, 2, 2), 'a series without words')
      call c%invert(g, f, e)
      call record(is(e, 2, 2) .and. .not. allocated(f%words), 'a map that is not allocated')
      call c%substitute(a, g, r, e)
      call record(is(e, 2, 3), 'substitution of a map that is not allocated')
      call c%set(unset, [1, 0], 1, e)
      call record(is(e, 2, 1), 'set in a series that is not allocated')
      call c%get(short, [1, 0], coefficient, e)
      call record(is(e, 2, 1) .and. coefficient == 0, 'get from a series without words')
      call c%put_component(g, 1, a, e)
      call record(is(e, 2, 1), 'put into a map that is not allocated')
      bad = a
      bad%words(:3) = [2, 196609, 196609]
      call c%sum(bad, a, r, e)
      call record(e%number == 7 .and. e%argument == 1 .and. e%component == 1 .and. e%place == 2, &
                  'a position twice: 7 at argument 1, component 1, word 2')
      bad%words(:3) = [1, 2*65536 + 65521, 0]
      call c%sum(a, bad, r, e)
      call record(e%number == 7 .and. e%argument == 2 .and. e%component == 1 .and. e%place == 1, &
                  'a coefficient word of 65,521')
      bad%words = -1
      call c%get(bad, [1, 0], coefficient, e)
      call record(e%number == 7 .and. e%place == 0, 'a negative number of entries')
      call record(same(r%words, [1, 4*65536 + 7, 0, 0, 0, 0, 0]), 'all of that leaves the result unchanged')
      call closed%sum(a, a, r, e)
      call record(is(e, yt_not_open, 0), 'a context that is not open')
      call closed%invert(f, g, e)
      call record(is(e, yt_not_open, 0), 'inversion in a context that is not open')
      call closed%set(a, [1, 0], 1, e)
      call record(is(e, yt_not_open, 0), 'set in a context that is not open')
   end subroutine

   subroutine other_settings()
      type(yt_context) :: c, other, small, flat
      type(yt_series) :: a, r
      type(yt_map) :: g
      type(yt_error) :: e
      call c%open(2, 2)
      call other%open(3, 2)
      a = series(c, [1, 0, 1])
      call c%sum(a, series(other, [1, 0, 1]), r, e)
      call record(is(e, yt_other_setting, 2), 'series of another setting')
      call c%invert(map(other, [1, 0, 1], [0, 1, 1]), g, e)
      call record(is(e, yt_other_setting, 1), 'map of another setting')
      call c%compose(c%new_map(), other%new_map(), g, e)
      call record(is(e, yt_other_setting, 2), 'inner map of another setting')
      call small%open(2, 1)
      call flat%open(1, 2)
      call small%sum(small%new_series(), flat%new_series(), r, e)
      call record(is(e, yt_other_setting, 2), 'another setting with the same N')
      call record(.not. allocated(r%words) .and. .not. allocated(g%words), 'no result was made')
   end subroutine

   subroutine numbers()
      type(yt_context) :: c, odd
      type(yt_series) :: a, r
      type(yt_map) :: f
      type(yt_error) :: e
      integer :: i
      integer, parameter :: n(8) = [10, 0, 1, 11, 1, -1, 2, huge(1)], v(8) = [7, 1, 0, 1, 9, 2, -2, huge(1)]
      do i = 1, 8
         call c%open(n(i), v(i), e)
         call record(is(e, 1, 0) .and. c%count == 0, 'setting out of range')
      end do
      call c%open(2, 2)
      a = series(c, [1, 0, 1])
      call c%set(a, [1, 0], 65521, e)
      call record(is(e, yt_coefficient, 0), 'coefficient 65,521')
      call c%set(a, [1, 0], -1, e)
      call record(is(e, yt_coefficient, 0), 'coefficient -1')
      call c%set(a, [2, 1], 1, e)
      call record(is(e, yt_no_monomial, 0), 'a monomial of order 3')
      call c%set(a, [1, huge(1)], 1, e)
      call record(is(e, yt_no_monomial, 0), 'exponents whose sum wraps')
      call c%set(a, [1], 1, e)
      call record(is(e, yt_no_monomial, 0), 'one exponent of two')
      call c%set(a, [-1, 1], 1, e)
      call record(is(e, yt_no_monomial, 0), 'a negative exponent')
      call record(size(c%exponents(0)) == 0 .and. size(c%exponents(7)) == 0, 'positions 0 and N + 1')
      f = c%new_map()
      call c%component(f, 3, r, e)
      call record(is(e, yt_no_component, 0), 'component 3 of 2')
      call c%multiple(65521, a, r, e)
      call record(is(e, 5, 0), 'multiplier 65,521')
      call c%multiple(-1, a, r, e)
      call record(is(e, 5, 0), 'multiplier -1')
      call c%derivative(3, a, r, e)
      call record(is(e, 3, 0), 'derivative in x3')
      call c%derivative(0, a, r, e)
      call record(is(e, 3, 0), 'derivative in x0')
      call odd%open(2, 3)
      call odd%bracket(odd%new_series(), odd%new_series(), r, e)
      call record(is(e, 4, 0), 'bracket with odd v')
      call record(.not. allocated(r%words), 'no result was made')
   end subroutine

   subroutine refused_maps()
      type(yt_context) :: c
      type(yt_series) :: r
      type(yt_map) :: f, g, identity
      type(yt_error) :: e
      call c%open(2, 2)
      identity = map(c, [1, 0, 1], [0, 1, 1])
      f = map(c, [0, 0, 1, 1, 0, 1], [0, 1, 1])
      call c%invert(c%new_map(), g, e)
      call record(is(e, 9, 0), 'the zero map')
      call c%invert(f, g, e)
      call record(is(e, 8, 1), '(1 + x1, x2) inverted')
      call c%substitute(series(c, [1, 0, 1]), f, r, e)
      call record(is(e, 8, 1), '(1 + x1, x2) substituted')
      call c%compose(identity, f, g, e)
      call record(is(e, 8, 1) .and. .not. allocated(g%words), '(1 + x1, x2) as inner map')
      call c%compose(f, identity, g, e)
      call record(is(e, 0, 0) .and. same_map(g, f), 'an outer map may have a constant')
      e = yt_error(7, 2, 1, 3_int64)
      call record(yt_message(e) == 'refusal 7: argument 2, component 1 is not an image at word 3', 'message of 7')
   end subroutine

   subroutine unasked()
      type(yt_context) :: c
      type(yt_map) :: g
      call c%open(2, 2)
      call c%invert(c%new_map(), g)
   end subroutine
end program
