# s360gdb
# Why nothing is left to do. First: the CPU waits, by bit 14 of its PSW
set var $pswm = 0x00020000
continue
stepi
# the operator's stop key
monitor key stop
continue
stepi
# Start operates it again; it waits as before. With the wait bit off, 200 branches to itself, which alters nothing
monitor key start
set var *(int*)0x200 = 0x47F00200
set var $pswm = 0
set var $pc = 0x200
x/i $pc
continue
stepi
# SIO 01F starts a program whose command 0A asks for a line, of which there is none. The channel event before which no
# line is there alters nothing
set var *(int*)0x48 = 0x00000300
set var *(int*)0x300 = 0x0A000400
set var *(int*)0x304 = 0x20000005
set var *(int*)0x208 = 0x9C00001F
set var *(int*)0x20c = 0x47F0020C
set var $pc = 0x208
continue
monitor show u 01F
# The line comes to 400 in EBCDIC, H is C8; then 20C branches to itself
monitor enter HELLO
continue
x/5xb 0x400
# What the operator does in vain is recorded all the same: start of a machine that operates, which alters nothing. Taken
# back and run again, the record ends with it
monitor key start
monitor back
continue
kill
