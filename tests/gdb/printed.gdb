# s360gdb --symbols printed.elf
# Of a line that chained command words print, each column has its byte: A is 1 to 3, B 4 to 8, and C 9 and 10. What was put into
# storage was put there as change 3. The sixth column is B+2, which is zero from the start on.
restore printed.elf
set var $pc = 0x200
continue
monitor show m 00E 1
history 5
who line 1 column 2
goto last
who line 1 column 4
goto end
who line 1 column 10 page 1
goto end
who line 1 column 6
# it stays, and a step is a step: change 12, which waits, is taken back
print $_change
reverse-stepi
print $_change
who line 1 column 11
who line 2 column 1
kill
