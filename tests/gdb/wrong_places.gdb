# s360gdb --symbols examples/cards.listing --reader examples/cards.deck
# Each wrong word has one line.
who TOTL
who
why
changes 1 +
who "text"
changes LINE+
who 0x1000000 5
changes *(char[300]*)0
dump
dump 0x200 0
dump TOTL 4
changes COUNT 0
why COUNT 101
stores
stores TOTL
stores COUNT 1001
readers
readers COUNT 0
uses TOTL
who *(char*)0xFFFFFF
who m 00E
who m 00E 0
visits 208
history none
goto
goto nowhere
goto 9999
mark
mark end
mark 1st
key
key end
load
load 123
tick 5
withdraw
withdraw 7
units all
where all
save printer
save tape9 file
save printer nowhere/list
who line 1 column 5
who line 1
print $_changes($r5)
print $_changes("TOTL")
break TOTL
over 5
kill
who COUNT
over
