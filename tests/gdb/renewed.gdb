# s360gdb --reader examples/cards.deck
# A line of `monitor` that moves the machine is followed by a stop, so that what is displayed is new; and each watch has its value from
# there on.
monitor key eof
monitor load 00C
display/i $pc
watch *(char*)0x388
continue
continue
continue
# Back to before the last change of the byte, which is 02 there: going on, gdb tells the change again
monitor who s 388
continue
# One that stays is followed by nothing
monitor show s 388 1
monitor goto 43
monitor goto start
info display
kill
