        .include "s360.inc"
START:  LA   1,WRITE
        ST   1,72                     # the channel address word
        SIO  0x00E
WAIT:   TIO  0x00E
        BC   2,WAIT
        LPSW DONE
        .balign 8
DONE:   .long 0x00020000,0
WRITE:  CCW  0x09,LINE,0,5
LINE:   EBCDIC "HELLO"
