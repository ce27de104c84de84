; A table of loads. Bit i of port A is the button of floor i + 1, and enters the table at its own LI: that one loads Acc, the LIs behind
; it are passed over, and port E gets the floor. INT rings the bell on port F; its handler loads Acc too, and comes behind the string.
        EI
key0:   TPA 0           ; skip if the button is pressed
        JCP key1
        CAL floor1      ; its own place in the table
key1:   TPA 1
        JCP key2
        CAL floor2
key2:   TPA 2
        JCP key3
        CAL floor3
key3:   TPA 3
        JCP round
        CAL floor4
round:  JCP key0

        org 03C         ; an accepted interrupt leads here
        JMP bell

        org 040
floor1: LI 1
floor2: LI 2
floor3: LI 3
floor4: LI 4
        OE              ; port E = Acc: the floor
        RT

        org 060
bell:   LDZ 5           ; DP = 5: port F
        LI F
        OP              ; the bell rings
        LI 0            ; OP stands between, so this loads
        OP              ; and is silent
        EI
        RT
