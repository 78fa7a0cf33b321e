# s360gdb --reader examples/turns.deck
# The example examples/turns, whose supervisor examples/turns.listing has: A counts by ones and B by tens, the timer ends a
# turn, and A should go on with 6. The numbers of changes are those of examples/turns.answers.
monitor load 00C
monitor run 100
monitor tick
monitor run 60
monitor tick
monitor run 60
monitor show m 01F 5
monitor show m 01F 9
# Back to the first instruction of A: three times in its second turn, which it began with 0 in register 15
break *0x276
reverse-continue
reverse-continue
reverse-continue
monitor standing
print $r15
# LM at 236 gives it its registers from 308 on: register 15 from 344. No change ever altered a byte of it
x/xw 0x344
monitor last s 347
# The PSW of A was kept at 300, with another address in its last byte, 27C for 276. Its registers should be kept behind
# that: back to before change 106, MVC at 216
delete
watch *(unsigned char*)0x307
reverse-continue
monitor standing
x/2i $pc
# A step over it is told, and A stands at 27C then. The next instruction moves 60 bytes, but sixteen registers have 64
stepi
print $r10
delete
# It is patched as change 107: of 223 changes 117 can't follow. Then both programs take further turns
set var *(char*)0x21d = 0x3f
monitor run 60
monitor tick
monitor run 60
monitor show m 01F 8
monitor show m 01F 9
monitor show m 01F 10
kill
