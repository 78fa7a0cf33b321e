# s360gdb --storage 8192
# What the machine has not: gdb says so, and the session goes on
x/xb 0x1fff
x/xb 0x2000
# gdb's own record is not begun: it is refused at once, and watches stay
watch *(char*)0x302
record
record full
record btrace
target record-full
info watchpoints
delete
# One thread, to which gdb is attached
info threads
# No symbols
step
finish
# 64 breakpoints are the most: `tests/packets/points` has that. Then gdb leaves
detach
