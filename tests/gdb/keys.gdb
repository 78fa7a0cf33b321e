# s360gdb --symbols examples/turns.listing --reader examples/turns.deck
# The operator's keys in gdb's words; each answers as monitor does. The timer ends the turn of A, which counts at ONES,
# and B goes on at TENS.
load 00C
break ONES
break TENS
continue
tick
continue
print CURRENT
key request
enter A LINE
history 2
who ext
changes ext
goto end
# Without the tick nothing ends the turn of A. The 11 events of the CPU up to TENS were its interruption and 10 instructions. Now they
# are LA, SVC and the first nine of CALL, so that TIO at 266 is next
history 13
withdraw 18
history 13
print $pc
print $_change
save console log
shell cat log
complete key s
complete goto l
complete load 0
complete save p
complete who TY
complete changes PROG
help over
help save printer
kill
