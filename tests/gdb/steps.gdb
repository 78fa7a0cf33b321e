# s360gdb
# Steps forward and back over a program of three instructions, each with what it makes of a register and of the
# condition code; and the ends of what was recorded.
set var *(int*)0x200 = 0x1A121B21
set var *(int*)0x204 = 0x47F00200
set var $r1 = 5
set var $r2 = 7
set var $pc = 0x200
x/3i $pc
# AR: 5 + 7 is 12, which is positive
stepi
print $r1
print $cc
# SR: 7 - 12 is -5, which is negative
stepi
print/x $r2
print $cc
# BC: any condition
stepi
print $pc
reverse-stepi
reverse-stepi
print $r2
print $cc
reverse-stepi
print $r1
print $cc
# Before it the five patches are taken back, to the start
reverse-continue
print $r1
x/2xw 0x200
# and run again, with the three instructions, to the end of the record
continue
print $r1
print/x $r2
print $pc
# The eight events stand, and no more were recorded
monitor standing
kill
