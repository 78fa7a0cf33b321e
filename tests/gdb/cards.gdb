# s360gdb --reader examples/cards.deck
# The example examples/cards, whose program examples/cards.listing has, from the damage to its cause.
# No card follows the deck; change 2 begins loading, which is 8 channel events. Changes 11 to 37 list the first card, and
# with the second the channel refuses the command word at 388: change 40 is SIO, 41 BNZ, 42 LPSW 2A0, and 43 alters
# nothing, since the PSW waits with the address BAD.
monitor key eof
monitor load 00C
continue
# One line of three was printed, and the channel status word has a program check in bit 42
monitor show m 00E 2
monitor show s 44 2
# since the command word of the reader begins with a blank in place of 02 (read)
x/2xw 0x388
# MVC at 238 blanks 132 bytes from 305 on, which is 305 to 388. It was change 26, so that 25 stand before it
watch *(char*)0x388
reverse-continue
x/i $pc
monitor standing
# Its length byte has one less than the bytes that are moved: 83 moves 132, and 82 the 131 that a line of 132 has behind
# its first one. What was recorded behind it, changes 26 to 43, can't follow
set var *(char*)0x239 = 0x82
delete
continue
# three cards, their number, and the PSW at 298
monitor show m 00E 1
monitor show m 00E 2
monitor show m 00E 3
monitor show m 00E 4
kill
