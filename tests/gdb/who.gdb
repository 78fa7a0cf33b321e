# s360gdb --reader examples/cards.deck
# The find of README.md, by one inquiry, from the damage to its cause.
monitor key eof
monitor load 00C
continue
x/2xw 0x388
monitor who s 388
# The machine stands before the store, and gdb knows it
x/i $pc
x/2xw 0x388
monitor where
# Once more, to the card that brought the word, and back to where one stood; what lies ahead can still be run
monitor who s 388
print $pc
monitor goto last
print $pc
monitor changes s 388
monitor history 3
monitor goto end
print $pc
monitor goto 25
# The mend drops what was recorded behind it, and the program lists its three cards
set var *(char*)0x239 = 0x82
continue
monitor who d 00E
monitor dump 304 20
kill
