; A dispatcher of four landings. Bit i of port A is the button of landing i, bit i of port B says that the car is there. Word 05 keeps
; the calls, word 06 what the lamps on port F show; the lamps are written where the two differ, and between two looks the panel waits
; 40 milliseconds on its timer. A reset forgets the calls: whoever waits has to call again.
        LDZ 5           ; DP = 05
        LI 0
        S               ; no calls
        LDZ 6
        S               ; all lamps are dark
        LDZ 5
        JMP look0

        org 040         ; DP is 05 before and after each look
look0:  TPA 0           ; skip if the button is pressed
        JCP car0
        SMB 0           ; a call
car0:   LDZ 1           ; DP = 1: port B
        TPB 0           ; skip if the car is here
        JCP next0
        LDZ 5
        RMB 0           ; answered
next0:  LDZ 5

look1:  TPA 1
        JCP car1
        SMB 1
car1:   LDZ 1
        TPB 1
        JCP next1
        LDZ 5
        RMB 1
next1:  LDZ 5

look2:  TPA 2
        JCP car2
        SMB 2
car2:   LDZ 1
        TPB 2
        JCP next2
        LDZ 5
        RMB 2
next2:  LDZ 5

look3:  TPA 3
        JCP car3
        SMB 3
car3:   LDZ 1
        TPB 3
        JCP next3
        LDZ 5
        RMB 3
next3:  LDZ 5

        LM 0            ; Acc = the calls
        LDZ 6
        CM              ; skip if the lamps show them
        JCP show
        JCP rest
show:   S
        LDZ 5           ; DP = 5: port F
        OP              ; the lamps
rest:   STM BF          ; of BF the low 6 bits: 63
wait:   TTM             ; skip if the timer has run out
        JCP wait
        LDZ 5
        JCP look0
