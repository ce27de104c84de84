; An interrupt. INT falls when a passenger calls; port A has the floor, and the handler writes it to port E.
        EI
wait:   NOP
        JCP wait

        org 03C         ; an accepted interrupt leads here
        IA              ; Acc = port A
        OE              ; port E = Acc
        EI
        RT
