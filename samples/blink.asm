; A timer. Port F is turned over each time that it has run out: 63 times 4 cycles after the end of STM.
        LDZ 5           ; DP = 5: port F
again:  STM 83          ; of 83 the chip takes the low 6 bits: 3
wait:   TTM             ; skip if the timer has run out
        JCP wait
        CMA             ; Acc = 15 - Acc
        OP              ; port F = Acc
        JCP again
