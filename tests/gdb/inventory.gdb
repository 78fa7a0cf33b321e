# s360gdb --reader examples/inventory/job.deck --tape0 examples/inventory/master.tape0
# The second page of the report has the number of a card in place of its date, and the value of the stock on its last line is too
# small. inventory.listing has the places: the heading is printed from TITLE at 518, and the value is summed in register 7
monitor key eof
monitor load 00C
continue
monitor show m 00E 9
monitor show m 00E 15
# The command word RDCARD at 410 reads 80 bytes into the 72 of CARD at 4D0: first the card of change 51
monitor who s 518
monitor goto end
# HEADING, which is called at 36A, puts the number of the page into register 7, and saves the registers from 8 on
monitor changes r 7 5
monitor who d 00E
monitor why s 5D4 4
kill
