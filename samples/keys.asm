; A matrix of four keys on port C. Bits 0 and 1 are the rows, which the panel strobes, bits 2 and 3 the columns, which answer. C reads
; what it drives, so that one IP has row and column, and what it reads is the key: 5 and 9 in row 0, 6 and A in row 1.
        LDZ 2           ; DP = 2: port C, and M is word 02
scan:   LI 1            ; row 0
        CZP row
        LI 2            ; row 1
        CZP row
        JCP scan

        org 010
row:    S               ; M = Acc: the row
        OP              ; port C = Acc: its strobe
        IP              ; Acc = port C: the strobe, and the columns that answer
        CM              ; skip if the strobe is all that is read
        JCP key
        NOP             ; no key: as many cycles as with one
        NOP
        RT
key:    OE              ; port E = Acc: the key
        RT
