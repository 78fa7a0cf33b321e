# s360gdb
# Watched bytes forward and back, over a loop that stores three times:
#   200 AR 1,2    202 LA 1,3(1)    206 ST 1,604    20A BCT 3,200
# Register 1 begins with 5, and 10 is added each time: 15, 25, 35.
set var *(int*)0x200 = 0x1A124110
set var *(int*)0x204 = 0x10035010
set var *(int*)0x208 = 0x06044630
set var *(short*)0x20c = 0x0200
set var $r1 = 5
set var $r2 = 7
set var $r3 = 3
set var $pc = 0x200
x/4i $pc
watch *(int*)0x604
# Forward the machine stands behind the store
continue
continue
continue
print $pc
# Back it stands before the store, and both values are told. 35 came by the third, 25 by the second
reverse-continue
print $r1
reverse-continue
print $r1
# A step over a store tells it too, forward and back
stepi
reverse-stepi
reverse-continue
print $r1
# before the first store nothing altered the word: back to the start
reverse-continue
x/xw 0x604
# A breakpoint at the store and one behind it: there the watch is met too, and gdb tells both. At the breakpoint before
# the store nothing was altered yet
break *0x206
break *0x20a
continue
continue
continue
continue
# back: the store is taken back from behind it, and what is told is the watch, at the breakpoint before the store
reverse-continue
reverse-continue
reverse-continue
info breakpoints
# Without breakpoints the watch alone stops
delete 2 3
continue
# A byte that is written with the value that it has isn't altered. The high bytes of the word are 0 at each store: watched
# alone they never stop, up to the end of the record, which is the third store
delete
watch *(short*)0x604
continue
# 8 patches and three times four instructions but the last
monitor standing
# BCT comes to 0, and behind it there are zeros, which are no instruction: interruptions for the code 1, until one alters
# nothing
continue
print $r3
kill
