# s360gdb --tape0 examples/charge.tape0
# The example examples/charge, whose program examples/charge.listing has: column 25 of a punched record should have a digit
# of the balance. Loading is changes 1 to 3. A record takes 25 events from 200 to 25C: 4 to 28, 29 to 53 and 54 to 78; then
# 79 to 87 find the mark, 88 is LPSW and 89 alters nothing.
monitor load 180
continue
monitor show m 00D 1
monitor show m 00D 3
monitor standing
# Column 26 is the byte at 2A9. It is F0 by OI at 240, the 17th event of a record: change 70 for the third
watch *(unsigned char*)0x2a9
reverse-continue
x/i $pc
monitor standing
# Before that a channel event had put a blank there, which is the fourth event of a record: 57
reverse-continue
monitor standing
# and OI of the second record is change 45
reverse-continue
monitor standing
# What should be given a zone is the last of five bytes from 2A4 on, 2A8, where UNPK has put the digit 5 with the sign C:
# 985 and 150 are 1135
x/6xb 0x2a4
# so the address in OI is one too great. At the first record, before change 20, it is made right: of 89 changes 70 can't
# follow
delete
break *0x240
reverse-continue
monitor standing
set var *(char*)0x243 = 0xa8
delete
continue
monitor show m 00D 1
monitor show m 00D 2
monitor show m 00D 3
monitor show m 00D 4
kill
