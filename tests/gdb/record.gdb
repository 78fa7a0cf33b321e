# s360gdb --reader examples/cards.deck
# Forward, backward and again forward: what was taken back runs again as it was, keys and ticks and patches among it, and
# stops once at the end of the record before anything new runs. The numbers of changes are those of cards.gdb.
set var $r7 = 0x1234
monitor key eof
monitor load 00C
break *0x200
# A patch and a key come before loading: 11 changes
continue
monitor standing
# It is the first moment at 200: back to the start
reverse-continue
monitor standing
print/x $r7
# the other way, the end of the record is at the breakpoint, which is told
continue
print/x $r7
delete
# A tick counts the timer down at 50 from 0 to -256: the record's last change
monitor tick
x/xw 0x50
reverse-continue
monitor show d 00C
continue
monitor standing
x/xw 0x50
monitor show d 00C
# steps over the end: from the first change on, `stepi` runs what is recorded up to and with an event of the CPU, which are
# none, and the end stops it
reverse-continue
stepi
monitor standing
# and only then something new: LA at 200
stepi
x/i $pc
monitor standing
# Back by one event of the CPU, and by one more, which there is not: with the tick all is taken back
reverse-stepi
monitor standing
reverse-stepi
monitor standing
# the same with nothing that stands
reverse-stepi
reverse-continue
# To the end again, and on to where nothing is left to do: 44 changes and the tick, which leaves the timer pending for an
# external mask that is off
continue
continue
monitor standing
monitor show ext
kill
