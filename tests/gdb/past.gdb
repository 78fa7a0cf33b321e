# s360gdb
# What is written in the past: what equals the next recorded change goes along with the record, and anything else drops
# the rest of it.
set var $r1 = 1
set var $r1 = 2
set var $r1 = 3
reverse-continue
# The first of the three changes again: the other two stay recorded, and bring the register to 3
set var $r1 = 1
continue
print $r1
reverse-continue
# Another value: none of the three can follow it, so they are dropped
set var $r1 = 9
print $r1
monitor standing
reverse-continue
print $r1
# It is the one change of the record now
continue
print $r1
monitor standing
# Bytes of storage likewise: only the same bytes at the same address are the next change
set var *(char*)0x300 = 1
set var *(char*)0x301 = 2
reverse-continue
set var $r1 = 9
set var *(char*)0x300 = 1
set var *(char*)0x301 = 3
monitor standing
# One change was dropped, and nothing is left to run again: an operation exception of the zeros at 0 comes next, a
# program interruption, which stores the old PSW at 28 with code 1 and the length 1, and loads the PSW at 68, zeros. It
# alters bytes at 28 but the PSW, and the next one alters nothing
continue
x/2xw 0x28
monitor standing
kill
