// A crossing at which the cars stop where somebody on foot asks for it.
asm traffic_light
signature:
  enum domain Colour = {RED | AMBER | GREEN}
  domain Seconds subsetof Integer
  monitored button : Boolean
  controlled cars : Colour
  controlled walk : Boolean
  controlled asked : Boolean
  controlled left : Seconds
  static time : Colour -> Seconds
definitions:
  domain Seconds = {0:2}
  function time($c in Colour) = if $c = RED then 2 else 0 endif
  macro rule r_show($c in Colour, $w in Boolean) =
    par
      cars := $c
      walk := $w
      left := time($c)
    endpar
  invariant inv_safe over cars, walk : walk implies cars = RED
main rule r_Main =
  par
    asked := button or asked and not walk
    if left > 0 then
      left := left - 1
    else
      switch cars
        case GREEN :
          if asked then
            r_show[AMBER, false]
          endif
        case AMBER : r_show[RED, true]
        case RED : r_show[GREEN, false]
      endswitch
    endif
  endpar
default init s0:
  function cars = GREEN
  function walk = false
  function asked = false
  function left = 0
