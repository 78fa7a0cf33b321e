# s360gdb --symbols examples/cards.listing --reader examples/cards.deck
# The find of README.md in gdb's own words. who.gdb has it by monitor, with the same numbers of changes.
key eof
load 00C
continue
who RDCCW
print RDCCW
why RDCCW 1
why TEXT 1
why! LINE[0] 2
who RDCCW+0
goto last
# a field of 4 bytes of which one has changed, a register, other ways to say the byte at 388, and the PSW
changes COUNT
changes $r3
changes *(char[4]*)0x388
changes 0x388 1
changes s 388 1
changes r 3
changes *(char*)&RDCCW 1
changes $pc 1
changes u 00C 1
# the deck stores the field's zeros, and the first card is counted in all of its bytes
stores COUNT
stores COUNT 1
stores $r3 1
# what was made of them since: nothing yet of COUNT, and of the first blank a moment later a line of them
readers COUNT
goto 26
readers LINE+0
uses LINE+0 1
readers $r3
visits svc 5
goto 25
who k 0
history 3
history 1
# moments by name
mark damage
mark later
goto start
goto 9
marks
goto damage
goto end
print $_change
goto 0
goto damage
# mended, it lists its cards. Change 113 prints the fourth line, whose seventh column OI at 264 has made a digit of
set var *(char*)0x239 = 0x82
continue
# The mended MVC, which has blanked LINE to its end, is not the statement of the listing
changes LINE+131
who line 4 column 7
print/c LINE[6]
goto end
who line 4 column 20 page 1
goto end
dump TEXT
dump 0x388 16
dump s 388 16
dump &RDCCW
who m 00E 4
goto last
dump m 00E 4
units
where
save printer list
save printer list
save printer -overwrite list
shell cat list
print $_changes("COUNT")
print $_changes(COUNT)
print $_changes("$r3")
goto start
# $_change is the number of standing changes, at the prompt and in a condition. PRINT is reached after 28, 55, 82 and 109
print $_change
break PRINT if $_change > 60
continue
print $_change
info breakpoints
display $_change
stepi
reverse-stepi 2
kill
