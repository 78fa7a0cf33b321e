# s360gdb
# One event alters bytes of two watches: each is told, forward and back. MVC at 200 puts 01020304 to 300, and the one at 206 05060708.
set var *(int*)0x200 = 0xD2030300
set var *(int*)0x204 = 0x0310D203
set var *(int*)0x208 = 0x03000314
set var *(int*)0x20c = 0x47F0020C
set var *(int*)0x310 = 0x01020304
set var *(int*)0x314 = 0x05060708
set var $pc = 0x200
watch *(char*)0x300
watch *(char*)0x302
continue
continue
continue
continue
reverse-continue
reverse-continue
continue
continue
reverse-continue
reverse-continue
reverse-continue
reverse-continue
reverse-continue
kill
