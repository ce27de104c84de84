; A panel that halts, doesn't, and halts again: at 010 while button 0 isn't pressed, at 004 while both buttons are.
start:  TPA 0           ; skip if button 0 is pressed
        JCP none
        TPA 1           ; skip if button 1 is pressed
        JCP start
        byte 1C         ; no instruction

        org 010
none:   byte 45         ; no instruction
