// A lift that goes on in its direction while a floor ahead is called, and turns where none is.
asm lift
signature:
  enum domain Direction = {UP | DOWN}
  enum domain Door = {OPEN | CLOSED}
  domain Floor subsetof Integer
  monitored pressed : Floor -> Boolean
  controlled called : Floor -> Boolean
  controlled floor : Floor
  controlled direction : Direction
  controlled door : Door
  derived ahead : Direction -> Boolean
  static opposite : Direction -> Direction
definitions:
  domain Floor = {0:2}
  function opposite($d in Direction) = if $d = UP then DOWN else UP endif
  function ahead($d in Direction) =
    (exist $f in Floor with called($f) and if $d = UP then $f > floor else $f < floor endif)
  macro rule r_move($d in Direction) =
    par
      direction := $d
      floor := if $d = UP then floor + 1 else floor - 1 endif
    endpar
  macro rule r_serve =
    if door = OPEN then
      door := CLOSED
    else if called(floor) then
      door := OPEN
    else if ahead(direction) then
      r_move[direction]
    else if ahead(opposite(direction)) then
      r_move[opposite(direction)]
    endif endif endif endif
  invariant inv_door over door, called, floor : door = OPEN implies called(floor)
main rule r_Main =
  par
    forall $f in Floor do
      called($f) := (called($f) or pressed($f)) and not ($f = floor and door = OPEN)
    r_serve[]
  endpar
default init s0:
  function called($f in Floor) = false
  function floor = 0
  function direction = UP
  function door = CLOSED
