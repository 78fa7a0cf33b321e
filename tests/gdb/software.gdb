# s360gdb
# A watch of a register, which gdb does by steps: it ends where nothing is left to do, and appends one event at most. At 200 is LPSW,
# which loads a PSW that waits.
set var *(int*)0x200 = 0x82000300
set var *(int*)0x300 = 0x00020000
set var *(int*)0x304 = 0x00000BAD
set var $pc = 0x200
watch $r9
continue
continue
monitor standing
reverse-continue
monitor standing
kill
