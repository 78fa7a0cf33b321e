# s360gdb --reader examples/cards.deck
# What units have is saved in files, in the folder in which gdb was started. The program ends after one line.
monitor key eof
monitor load 00C
continue
monitor save printer list
monitor save printer list
shell cat list
monitor save printer a list
shell cmp list 'a list' && echo the same
# Change 32 prints the one line. Before it there is none, and behind it the file is as it was
monitor goto 31
monitor save printer list
monitor save! printer list
shell wc -c < list
monitor goto end
monitor save! printer list
shell cmp list 'a list' && echo the same
# What was entered, and no card and no tape
monitor enter THE END
monitor save console typed
shell cat typed
monitor save punch cards
monitor save tape0 tape
shell wc -c < tape
# What the first change did
monitor save trace first 1 1
shell tail -1 first
# What is wrong is told, and nothing is saved
monitor save
monitor save reader list
monitor save tape1
monitor save console no/such/folder
monitor standing
kill
