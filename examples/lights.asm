// Two crossings whose lights change by a timer. At each time one of them is red.
asm lights
import StandardLibrary
signature:
  enum domain Colour = {RED | GREEN | AMBER}
  domain Seconds subsetof Integer
  abstract domain Crossing
  static north : Crossing
  static south : Crossing
  dynamic controlled light : Crossing -> Colour
  dynamic controlled left : Crossing -> Seconds
  derived stopped : Crossing -> Boolean
definitions:
  domain Seconds = {0:9}
  function stopped($c in Crossing) = light($c) = RED
  macro rule r_change($c in Crossing) =
    switch light($c)
      case RED : light($c) := GREEN
      case GREEN : light($c) := AMBER
      case AMBER : light($c) := RED
    endswitch
  invariant inv_stopped over light : (exist $c in Crossing with stopped($c))
main rule r_Main =
  forall $c in Crossing do
    if left($c) > 0 then
      left($c) := left($c) - 1
    else
      par
        left($c) := 9
        r_change[$c]
      endpar
    endif
default init s0:
  function light($c in Crossing) = if $c = north then GREEN else RED endif
  function left($c in Crossing) = 9
