! Inverts the map (x1 + 2 x2, x2 + 3 x1^2) to order 3, prints the inverse, composes the two, and shows what a refusal
! looks like.
program example
   use, intrinsic :: iso_fortran_env, only: error_unit, int64
   use yigtrav
   implicit none
   type(yt_context) :: c
   type(yt_series) :: part, square
   type(yt_map) :: map, inverse, composed
   type(yt_error) :: error
   integer :: k, position, coefficient
   integer(int64) :: pairs

   call c%open(3, 2)
   print '(3(a,i0))', 'order ', c%n, ', variables ', c%v, ', monomials ', c%count

   map = c%new_map()
   part = c%new_series()
   call c%set(part, [1, 0], 1)
   call c%set(part, [0, 1], 2)
   call c%put_component(map, 1, part)
   part = c%new_series()
   call c%set(part, [0, 1], 1)
   call c%set(part, [2, 0], 3)
   call c%put_component(map, 2, part)

   call c%invert(map, inverse)
   do k = 1, c%v
      call c%component(inverse, k, part)
      do position = 1, c%count
         call c%get(part, c%exponents(position), coefficient)
         if (coefficient /= 0) print '(a,i0,a,i0,1x,i0,a,i0)', 'inverse ', k, ': exponents ', &
            c%exponents(position), ', coefficient ', coefficient
      end do
   end do

   call c%compose(map, inverse, composed)
   do k = 1, c%v
      call c%component(composed, k, part)
      print '(a,i0,a,i0,a)', 'map after inverse, component ', k, ': ', part%words(1), ' entry'
   end do

   call c%component(inverse, 1, part)
   call c%product(part, part, square, pairs)
   print '(a,i0,a)', 'inverse 1 squared: ', pairs, ' pairs'

   call c%invert(c%new_map(), inverse, error)
   print '(a,i0,a,i0)', 'zero map: number ', error%number, ', place ', error%place
   write (error_unit, '(a)') yt_message(error)
end program
