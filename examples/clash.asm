asm clash

signature:
    controlled request : Boolean
    controlled grant : Boolean

definitions:
    main rule r_Main =
        par
            if request then
                grant := true
            endif
            if request then
                grant := false
            else
                request := true
            endif
        endpar

default init s0:
    function request = false
    function grant = false
