# s360gdb --reader examples/cards.deck
# The screen of docs/reference/gdb.md. By examples/cards.listing change 16 is TIO; who.gdb has why each is so.
monitor key eof
monitor load 00C
continue
monitor why s 388
monitor why! s 388 1
monitor who s 388
monitor where
monitor who s 388
monitor goto last
monitor changes u 00C 1
monitor history 1
monitor visits 208
monitor jumps 3
monitor dump 388 21
monitor goto 30
monitor calls
monitor goto end
monitor units
kill
