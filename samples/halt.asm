; A panel that halts. The lamps of the lobby, and behind the car at landing 3 a self-test: it waits for the timer, and ends at a byte
; that was read wrongly, 1C, which is no instruction.
land0:  TPA 0           ; skip if the button is pressed
        JCP car0
        LDZ 5           ; DP = 5: port F
        SPB 0           ; lamp on
car0:   LDZ 1           ; DP = 1: port B
        TPB 0           ; skip if the car is here
        JCP land1
        LDZ 5
        RPB 0           ; lamp off

land1:  TPA 1
        JCP car1
        LDZ 5
        SPB 1
car1:   LDZ 1
        TPB 1
        JCP land2
        LDZ 5
        RPB 1

land2:  TPA 2
        JCP car2
        LDZ 5
        SPB 2
car2:   LDZ 1
        TPB 2
        JCP land3
        LDZ 5
        RPB 2

land3:  TPA 3
        JCP car3
        LDZ 5
        SPB 3
car3:   LDZ 1
        TPB 3
        JCP round
        JMP test        ; in place of LDZ 5 and RPB 3

round:  JCP land0

        org 040
test:   STM BF          ; of BF the low 6 bits: 63, which is 4,032 cycles
wait:   TTM             ; skip if the timer has run out
        JCP wait
        byte 1C         ; no instruction
