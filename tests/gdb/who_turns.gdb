# s360gdb --reader examples/turns.deck
# The find of turns.gdb by inquiries: A, which had come to 5, begins its second turn with 1.
monitor load 00C
monitor run 100
monitor tick
monitor run 60
monitor tick
monitor run 60
monitor show m 01F 5
monitor show m 01F 9
# LM at 236 gives it register 15 from 344 to 347, where nothing was ever put; its PSW was kept, at 300, by MVC at 216: 27C for 276
monitor changes s 347
monitor who s 307
# The instruction behind that one keeps its registers: 60 bytes, but sixteen registers have 64. Of 223 changes 117 can't follow
monitor goto 106
monitor where
set var *(char*)0x21d = 0x3f
monitor run 60
monitor tick
monitor run 60
monitor show m 01F 10
kill
