# s360gdb --symbols calls.elf
# Over subroutines, forward and back, with the symbols of GNU as. Each call of TWICE adds 5 two times to TOTAL.
restore calls.elf
set var $pc = 0x200
info line ADD
list START
# BALR 12,0 is no call, and the next instruction is at 202; BAL at 206 comes back to 20A
over
over
over
print *(int*)&TOTAL
over
# BALR 14,4 at 20E comes back to 210, by which time 20 is in TOTAL
over
x/i $pc
print *(int*)&TOTAL
# and back: past the second TWICE, LA, and past the first
reverse-over
x/i $pc
print *(int*)&TOTAL
reverse-over
reverse-over
print *(int*)&TOTAL
reverse-over
reverse-over
print $pc
# A breakpoint or a watch on the way stops both
break ADD
over
over
over
bt
delete
# within TWICE, whose BAL at 218 is past at 21C
tbreak *0x21c
continue
over
reverse-over
reverse-over
watch *(int*)&TOTAL
over
reverse-over
delete
# what changed the total, by label and line
goto end
changes TOTAL
who TOTAL
who TOTAL
history 2
print $_changes("TOTAL")
# a breakpoint that waits for the changes: the second visit of ADD comes after one change of TOTAL, the fourth after 3
goto start
break ADD if $_changes("TOTAL") == 3
continue
print *(int*)&TOTAL
delete
# the calls that have not returned where the second TWICE has called ADD for the second time; out of ADD, and back to the call of TWICE
calls
jumps 2
visits ADD 2
out
calls
reverse-out
print $pc
calls
out
reverse-out
jumps x
visits
kill
