# s360gdb --reader examples/cards.deck
# A breakpoint behind SIO at 208, at 20C. The event of the channel comes before BNZ there, so that the CPU is at 20C twice: with 13
# changes and with 14. gdb steps off a breakpoint that it stands at, which runs both.
monitor key eof
monitor load 00C
break *0x20c
continue
monitor standing
# The second card begins behind 37: LA, ST, and SIO, which the channel refuses, so that no event of it follows
continue
monitor standing
x/xb 0x2b0
# back the last moment at 20C is behind the event of the channel, and a step back from there is before SIO
reverse-continue
monitor standing
reverse-stepi
monitor standing
kill
