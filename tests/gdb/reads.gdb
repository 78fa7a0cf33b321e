# s360gdb
# Watches that wait for bytes to be read, forward and back. At 200: L 1,300; ST 1,304; SR 2,2; A 2,304; B 200. The word at 300 is 5.
set var *(int*)0x200 = 0x58100300
set var *(int*)0x204 = 0x50100304
set var *(int*)0x208 = 0x1B225A20
set var *(int*)0x20c = 0x030447F0
set var *(short*)0x210 = 0x0200
set var *(int*)0x300 = 5
set var $pc = 0x200
# A reads what ST stored
rwatch *(int*)0x304
continue
# back: before A
reverse-continue
reverse-continue
delete 1
# either: ST, A, and ST again, which stores the value that is there
awatch *(int*)0x304
continue
continue
continue
continue
reverse-continue
# to fetch an instruction is no reading of it
delete 2
rwatch *(int*)0x200
stepi
stepi 4
kill
