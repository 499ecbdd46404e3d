asm counter

signature:
    controlled high : Boolean
    controlled low : Boolean

definitions:
    main rule r_Count =
        if low then
            par
                low := false
                if high then
                    high := false
                else
                    high := true
                endif
            endpar
        else
            low := true
        endif

default init zero:
    function high = false
    function low = false
