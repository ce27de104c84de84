; Call lamps of four landings. Bit i of port A is the button of landing i, bit i of port B says that the car is there, and bit i of
; port F is the lamp. The landings are looked at one after the other.
land0:  TPA 0           ; skip if the button is pressed
        JCP car0
        LDZ 5           ; DP = 5: port F
        SPB 0           ; lamp on
car0:   LDZ 1           ; DP = 1: port B
        TPB 0           ; skip if the car is here
        JCP land1
        LDZ 5
        RPB 0           ; lamp off

land1:  TPA 1
        JCP car1
        LDZ 5
        SPB 1
car1:   LDZ 1
        TPB 1
        JCP land2
        LDZ 5
        RPB 1

land2:  TPA 2
        JCP car2
        LDZ 5
        SPB 2
car2:   LDZ 1
        TPB 2
        JCP land3
        LDZ 5
        RPB 2

land3:  TPA 3
        JCP car3
        LDZ 5
        SPB 3
car3:   LDZ 1
        TPB 3
        JCP round
        LDZ 5
        RPB 3

round:  JCP land0
