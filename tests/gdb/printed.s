# Prints a line of three parts, whose command words are chained: A, behind a transfer in channel B, and C. B has a byte without a sign.
        .text
        .org    0x200
START:  la      %r1,FIRST
        st      %r1,72
        .insn   s,0x9C000000,0x00E      # SIO
        lpsw    DONE
        .balign 8
DONE:   .long   0x00020000,0
FIRST:  .long   0x09000000+A
        .short  0x8000,3
        .long   0x08000000+LAST, 0
LAST:   .long   B
        .short  0x8000,5
        .long   C
        .short  0,2
A:      .byte   0xC1,0xC2,0xC3
B:      .byte   0xD1,0xD2,0,0xD4,0xD5
C:      .byte   0xE2,0xE3
