# s360gdb
# Breakpoints with conditions, which the target evaluates. At 200: AR 1,2; LA 1,3(1); ST 1,604; BCT 3,200. Register 1 begins with 5, and
# 10 is added each time.
set var *(int*)0x200 = 0x1A124110
set var *(int*)0x204 = 0x10035010
set var *(int*)0x208 = 0x06044630
set var *(short*)0x20c = 0x0200
set var $r1 = 5
set var $r2 = 7
set var $r3 = 30000
set var $pc = 0x200
break *0x206 if $r3 == 20
break *0x20a if *(int*)0x604 == 205 && ($r3 & 1) == 1
break *0x20a if $r3 == 5 || $pc == 0
continue
print $r3
print $r1
continue
print $r3
reverse-continue
print $r3
print *(int*)0x604
reverse-continue
# another condition in place of the first
condition 1 $r3 == 29999
continue
print $r3
# and none
condition 1
continue
print $r3
info breakpoints
kill
