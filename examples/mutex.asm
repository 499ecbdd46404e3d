// Peterson's mutual exclusion of two processes. In each step one of them moves, whichever it is.
asm mutex
signature:
  enum domain Phase = {IDLE | TRYING | CRITICAL}
  abstract domain Process
  static left : Process
  static right : Process
  static other : Process -> Process
  monitored wants : Process -> Boolean
  controlled phase : Process -> Phase
  controlled turn : Process
definitions:
  function other($p in Process) = if $p = left then right else left endif
  macro rule r_move($p in Process) =
    switch phase($p)
      case IDLE :
        if wants($p) then
          par
            phase($p) := TRYING
            turn := other($p)
          endpar
        endif
      case TRYING :
        if phase(other($p)) = IDLE or turn = $p then
          phase($p) := CRITICAL
        endif
      case CRITICAL : phase($p) := IDLE
    endswitch
  invariant inv_exclusion over phase : not (forall $p in Process with phase($p) = CRITICAL)
main rule r_Main =
  choose $p in Process do
    r_move[$p]
default init s0:
  function phase($p in Process) = IDLE
  function turn = left
