# Subroutines: TWICE calls ADD two times, and START calls TWICE by BAL and by BALR. BALR 12,0 calls nothing.
        .text
        .org    0x200
START:  balr    %r12,0
        la      %r2,5
        bal     %r14,TWICE
        la      %r4,TWICE
        balr    %r14,%r4
        lpsw    DONE
TWICE:  st      %r14,BACK
        bal     %r14,ADD
        bal     %r14,ADD
        l       %r14,BACK
        br      %r14
ADD:    l       %r3,TOTAL
        ar      %r3,%r2
        st      %r3,TOTAL
        br      %r14
        .balign 8
DONE:   .long   0x00020000,0x00000BAD
TOTAL:  .long   0
BACK:   .long   0
