; Counts frames at $11 by the NMI, and at $10 those in which Right is pressed.

        .org $8000
reset:  SEI
        LDA #$80        ; the NMI comes at the start of vertical blanking
        STA $2000
idle:   JMP idle

nmi:    INC $11
        LDA #1          ; the strobe takes the buttons in
        STA $4016
        LDA #0
        STA $4016
        LDX #8          ; the eighth read is Right
read:   LDA $4016
        DEX
        BNE read
        AND #1
        BEQ done
        INC $10
done:   RTI
