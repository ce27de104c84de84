; A call lamp. Bit 0 of port A is the button, bit 1 says that the car is here, bit 0 of port E is the lamp.
start:  TPA 0           ; skip if the button is pressed
        JCP car
        SEB 0           ; lamp on
car:    TPA 1           ; skip if the car is here
        JCP start
        REB 0           ; lamp off
        JCP start
