"""A fuzzer beside the second machine: sessions that nobody wrote, and what has to come of them.

`sessions` has a session with what the second machine says of it, and how it is taken back whole;
`media` random files of decks and tapes, `lines` random lines, and `kinds` the kinds of sessions;
`comparing` runs the program, `shrinking` makes a session that differs smaller and keeps it as a
row, and `planted` tries second machines that are wrong. `tests/fuzz` runs them.
"""
