"""A second machine with its debugger, and random scripts for it.

`second_opinion.py` and `fuzz` compare the program with it. Its author had read the definitions of
the first machine, so it finds slips and not a rule that was misread.

`core` has the places, `machine` the events and most instructions, `logical` those on bytes in
storage, `channels` the channels with theirs, `devices` and `tapes` the units, `lines` how a script
is read, `debugger` the answers to its lines, `programs` random media and channel programs, and
`scripts` random scripts. `remote` answers gdb's packets over a `recording`, and `packet_fuzz.py`
compares with that;
`inquiries` has what a person asks, `causes` why a place has its value, and `sources` what an event
made it of. `savings` has the files that are saved, and `traces` that of what each change did.
`shapes` has what an event does but for values, for `why_by_experiment.py`.
"""
