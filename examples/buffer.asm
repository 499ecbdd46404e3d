// A buffer of three places. In each step an item is put, where there is room, or one is taken, where there is one.
asm buffer
signature:
  enum domain Item = {RED | GREEN | BLUE}
  domain Place subsetof Integer
  domain Count subsetof Integer
  monitored item : Item
  controlled held : Place -> Item
  controlled first : Place
  controlled count : Count
  out taken : Item
definitions:
  domain Place = {0:2}
  domain Count = {0:3}
  macro rule r_put($i in Item) =
    par
      held((first + count) mod 3) := $i
      count := count + 1
    endpar
  macro rule r_take =
    par
      taken := held(first)
      held(first) := undef
      first := (first + 1) mod 3
      count := count - 1
    endpar
  invariant inv_held over held, first, count :
    (forall $p in Place with isDef(held($p)) iff ($p - first + 3) mod 3 < count)
main rule r_Main =
  choose $put in Boolean with if $put then count < 3 else count > 0 endif do
    if $put then
      r_put[item]
    else
      r_take[]
    endif
default init s0:
  function first = 0
  function count = 0
