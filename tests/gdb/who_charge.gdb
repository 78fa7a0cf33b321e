# s360gdb --tape0 examples/charge.tape0
# The find of charge.gdb by inquiries: a punched record has C7 in column 25, which is the byte at 2A8, and F0 in column 26, 2A9.
monitor load 180
continue
monitor show m 00D 3
# OI at 240, change 70, gives the byte behind the balance a zone; UNPK before it put the digit 7 there with the sign C, for
# 45117 and 150 are 45267, so that it is the address in OI that is wrong
monitor who s 2A9
monitor who s 2A8
# The first record meets it as change 20. Of 89 changes 70 can't follow
monitor goto 19
x/i $pc
set var *(char*)0x243 = 0xa8
continue
monitor show m 00D 3
kill
