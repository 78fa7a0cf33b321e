# s360gdb --reader examples/cards.deck examples/cards.s360
# A script on the command line is carried out before gdb asks anything: what it leaves is what gdb finds, and can be taken
# back. examples/cards.answers has its numbers: change 26 is its patch of 239, and 93 more events were run.
monitor standing
print $pc
monitor show m 00E 4
watch *(unsigned char*)0x239
# before the patch there was 83, and the machine stands at the instruction that it patches
reverse-continue
monitor standing
continue
# back to the change with which loading put it there: change 5 reads card 3 to 200
reverse-continue
reverse-continue
monitor standing
kill
