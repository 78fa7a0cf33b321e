# s360gdb --reader examples/cards.deck
# The ends of the record. A step that comes to its end stops by a text, so that gdb, which steps off a breakpoint before it goes on, does
# not wait for ever.
monitor key eof
monitor load 00C
break *0x234
continue
set var $r3 = 7
reverse-continue
# From the breakpoint gdb steps: the first event of the record's rest is that of the CPU, and the write is behind it
continue
stepi
delete
# Steps over what was recorded end with it: 43 changes, with the write in place of what came behind
monitor goto start
stepi 1000
monitor standing
reverse-stepi 1000
monitor standing
# and what comes behind the end is new
continue
continue
monitor standing
continue
stepi 5
monitor standing
kill
