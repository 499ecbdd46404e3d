asm t
signature:
controlled x : Boolean controlled y : Boolean
definitions:

main rule r_Main =
par x := y y := x endpar
default init s0:
function x = true function y = false
