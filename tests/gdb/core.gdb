# s360gdb --storage 32768
# What gdb saves of storage has its size, and outside there is nothing
set var *(int*)0x7ffc = 0x12345678
generate-core-file core
shell test $(stat -c %s core) -lt 40000 && echo small
x/xw 0x7ffc
x/xb 0x8000
info mem
kill
