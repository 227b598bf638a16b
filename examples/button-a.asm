; Keeps button A at $10, read with the strobe high.

        .org $8000
reset:  LDA #1
        STA $4016
loop:   LDA $4016
        AND #1
        STA $10
        JMP loop
