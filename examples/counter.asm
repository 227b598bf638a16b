; Counts at $10 as fast as it can.

        .org $8000
reset:  INC $10
        JMP reset
