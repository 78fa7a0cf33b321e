# s360gdb --reader examples/cards.deck
# Bytes that a card spoils: the watch stops before the channel event that reads it. Loading is changes 2 to 10: 3 reads
# card 1 to 0, 4 card 2 to 100, and 5 to 10 the cards 3 to 8 to 200, 250, 2A0, 2F0, 340 and 390.
monitor key eof
monitor load 00C
continue
monitor standing
# The first byte of the area of a card is A of ADAMS, C1. Change 14 is the channel event that read it, behind LA, ST and SIO
# at 208: 13 stand before it, with the CPU behind SIO and the unit active
watch *(char*)0x2b0
reverse-continue
monitor standing
monitor show u 00C
# Forward it is altered by that event alone, and the CPU stands where it stood
continue
monitor standing
# Before it the byte is as new: no card put anything else there, since card 5, which came to 2A0 to 2EF, has zeros from its
# fifth byte on
reverse-continue
reverse-continue
# The byte of the command word at 388 was right as card 7 read it: change 9
delete
watch *(char*)0x388
continue
reverse-continue
reverse-continue
monitor standing
# nothing was altered before it
reverse-continue
monitor standing
kill
