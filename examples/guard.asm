asm guard

signature:
    controlled ready : Boolean
    controlled done : Boolean

definitions:
    main rule r_Main =
        if ready then
            par
                done := true
                ready := undef
            endpar
        endif

default init s0:
    function ready = true
