# extended s360gdb --reader examples/cards.deck
# In extended mode gdb starts the machine anew: `run` goes to the start of the record and over it
monitor key eof
monitor load 00C
continue
run
print $pc
starti
monitor standing
kill
run
monitor standing
# without symbols there is no `main`
start
detach
run
monitor standing
kill
