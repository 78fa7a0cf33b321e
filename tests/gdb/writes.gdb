# s360gdb
# What gdb writes is recorded, each an event of its own, and can be taken back
set var *(char*)0x300 = 0x12
set var *(short*)0x302 = 0x3456
set var *(int*)0x304 = 0x789ABCDE
x/2xw 0x300
# A deck of 880 bytes is four changes of at most 256, behind the three
restore examples/cards.deck binary 0x1000
monitor standing
# Its ninth card begins with ADAMS
x/5xb 0x1280
reverse-continue
x/2xw 0x300
x/5xb 0x1280
continue
x/5xb 0x1280
# All of the deck is outside storage from byte FFC0 on but 64 bytes: gdb, which knows where storage ends, writes these, and then says what
# failed
restore examples/cards.deck binary 0xffc0
x/2xw 0xffc0
monitor standing
# The first that is outside is 10000
set var *(char*)0xffff = 1
x/xb 0xffff
set var *(char*)0x10000 = 1
x/xb 0x10000
x/2xb 0xffff
# nor can a byte be watched that isn't there, which gdb finds when the machine is to go on
watch *(char*)0xffff
watch *(int*)0xfffe
continue
delete
# Registers: general ones, both words of the PSW, and the condition code and the program mask of the first
set var $r15 = 0xFEDCBA98
print/x $r15
set var $cc = 3
print/x $pswm
set var $pswm = 0xFFE13F00
monitor show psw
print $cc
# Bits that the PSW hasn't are dropped: 16 and 17 of the mask word and its last byte, and the first byte of the address
set var $pswm = 0xFFFFFFFF
print/x $pswm
set var $pswa = 0xFF123456
print/x $pswa
monitor show psw
# and what the machine lacks can't be written
print $acr1
set var $acr1 = 1
print $f0
print $fpc
kill
