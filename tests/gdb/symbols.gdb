# s360gdb --symbols examples/cards.listing --reader examples/cards.deck
# Labels, lines and fields of a listing. The deck's program is at 200, and PRINT at 276, in line 33 of the listing.
monitor key eof
monitor load 00C
break PRINT
continue
bt
info frame
list
info line PRINT
info line
list COUNT
step
next
reverse-next
reverse-step
# COUNT is F'0' and has counted one card, which CARD has. LINE has it from its fifth column on. CAW is EQU 72
print COUNT
print LINE
ptype RDCCW
print RDCCW
print *(void**)&CAW
x/2xw &CAW
# back to where the count was stored
watch COUNT
reverse-continue
delete
watch *(int*)&COUNT
continue
reverse-continue
disassemble /s WRWAIT
x/2i &ERROR
info symbol 0x308
info line 19
delete
until 20
advance PRINT
tbreak 20
reverse-continue
kill
