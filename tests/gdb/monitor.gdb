# s360gdb --reader examples/cards.deck
# Lines of the script language, with the answers that they have in a script (docs/reference/debugger.md).
monitor help
monitor key eof
monitor load 00C
# 8 channel events load the program, 27 more list a card, and 200 is reached again: changes 3 to 10, and 11 to 37
monitor break 200
monitor run 1000
print $pc
monitor run 1000
print $pc
monitor standing
monitor show psw
monitor show regs
monitor show s 388 8
monitor show k 200
monitor show u 00C
monitor show d 00E
monitor show m 00E 1
monitor show m 00E 2
monitor show ext
monitor show image 180
# MVC at 238, change 26, was the last to alter the byte; and no change ever altered register 15
monitor last s 388
monitor last r F
# gdb knows of what a line alters: the timer counts down by 256
x/xw 0x50
monitor tick
x/xw 0x50
monitor patch r 7 ABCD
print/x $r7
monitor patch p 0000000000000300
print $pc
# It takes back one change each, and they stay recorded
monitor back
monitor back
print/x $r7
monitor standing
continue
print $pc
# back to the breakpoint of the language before the tick, which is change 38, and to the one before
monitor until
monitor until
monitor standing
monitor clear 200
# Up to the end of the record, 40
continue
monitor standing
# Nothing of the record is dropped by an event that is the next recorded one: the patch of register 7 was change 39
monitor until
continue
monitor back
monitor back
monitor patch r 7 ABCD
monitor standing
continue
# Any other drops the rest: change 40 can't follow another word, so that the machine goes on from 200 to where it waits, by
# six events, of which SIO finds a command word that is spoilt
monitor back
monitor back
monitor patch r 7 1
continue
monitor standing
# A withdrawal drops what doesn't stand, and gives later changes lower numbers: the tick was 38, and then the patch of
# register 7 is
monitor patch r 8 2
monitor back
monitor withdraw 38
monitor standing
x/xw 0x50
print $r7
monitor withdraw 38
monitor standing
print $r7
# What a script skips has no answer
monitor
monitor * a comment
# What is wrong with a line is told as in a script, and nothing happens; of 43 changes the next is 44
monitor stepp
monitor key
monitor patch s FFFF 0102
monitor channel 00F
monitor enter ABCDEFGHIJKLMNOPQRSTUVWXYZ
monitor show m 01F 1
monitor step
print $pc
kill
