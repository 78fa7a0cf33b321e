# s360gdb
# Breakpoints forward and back, over a loop that adds 5 to register 2 three times and then waits:
#   200 AR 2,3    202 BCT 1,200    206 LPSW 300
set var *(int*)0x200 = 0x1A234610
set var *(int*)0x204 = 0x02008200
set var *(short*)0x208 = 0x0300
set var *(int*)0x300 = 0x00020000
set var *(int*)0x304 = 0x00000BAD
set var $r1 = 3
set var $r3 = 5
set var $pc = 0x200
monitor standing
x/3i $pc
break *0x202
# At BCT: 5, 10 and 15 in register 2, and register 1 counts down after each
continue
print $r1
print $r2
continue
print $r1
print $r2
continue
print $r1
print $r2
# BCT makes 0 of register 1 and does not branch; LPSW loads the wait state. Nothing is left to do, which is found by an
# event that alters nothing: 8 patches, 3 times AR, 3 times BCT, LPSW and this one
continue
print $r1
monitor standing
# Back over the same three, the last first, and to the start
reverse-continue
print $r1
print $r2
reverse-continue
print $r2
reverse-continue
print $r2
reverse-continue
print $r2
monitor standing
# Forward again, ticks of the count and all, from the record
continue
print $r2
info breakpoints
delete 1
# A hardware breakpoint is the same to the machine: at AR for the second time, where register 2 has 5
hbreak *0x200
continue
print $r2
# back at AR for the first time
reverse-continue
print $r2
# `until`, `advance` and `tbreak` set breakpoints that are gone once reached
delete
until *0x202
print $r2
advance *0x206
print $r2
tbreak *0x202
reverse-continue
print $r2
# and `nexti` is one instruction here, as `stepi` is
nexti
print $pc
reverse-nexti
print $pc
# a step is told where it ends, also at a breakpoint; two steps are one back again
break *0x200
stepi 2
reverse-stepi 2
kill
