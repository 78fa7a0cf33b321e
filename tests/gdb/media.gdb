# s360gdb --symbols examples/charge.listing --tape0 examples/charge.tape0
# What units have, saved in gdb's words: three cards, which the program puts into P1, the tape as it was, and one that is blank; and the load key's
# trace, a line of the run state, of the external conditions and of each unit.
load 180
continue
save punch cards
save P1 pocket 1
save P2 pocket 2
save RP3 pocket 3
save tape0 first
save tape1 second
save trace third 1 1
shell cmp cards 'pocket 1' && cmp first examples/charge.tape0
shell wc -c < cards
shell wc -c < second
units
kill
