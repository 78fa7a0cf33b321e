"""Run within gdb: carries out commands, and tells how each ended.

The environment has `COMMANDS`, a file of JSON with gdb's commands, and `TOLD`, the number of an open
file to which a line of JSON is written for each: how gdb stopped, what it printed, and what it shows
of the machine then.
"""
import hashlib
import json
import os

import gdb

REGISTERS = ["pswm", "pswa", *(f"r{number}" for number in range(16))]
STORAGE = 65536
stops, hits = [], {}


def told(event):
    """The numbers of breakpoints and watches for which gdb stopped, a signal, or neither."""
    if isinstance(event, gdb.BreakpointEvent):
        # Those that gdb looked at and passed are named too.
        met = [point for point in event.breakpoints if point.hit_count > hits.get(point.number, 0)]
        return sorted(point.number for point in met)
    return event.stop_signal if isinstance(event, gdb.SignalEvent) else ""


def shown():
    """What gdb shows of the machine, which it may have kept, and how far the recording stands."""
    frame, inferior = gdb.selected_frame(), gdb.selected_inferior()
    words = [int(frame.read_register(name)) for name in REGISTERS]
    storage = hashlib.sha256(inferior.read_memory(0, STORAGE)).hexdigest()
    answer = inferior.connection.send_packet("qRcmd," + b"where".hex())
    return [words, storage, bytes.fromhex(answer.decode()).split(b"\n")[0].decode()]


def carried_out(command):
    stops.clear()
    hits.update((point.number, point.hit_count) for point in gdb.breakpoints())
    try:
        printed = gdb.execute(command, to_string=True)
    except gdb.error as fault:
        printed = f"{fault}\n"
    return {"stops": list(stops), "printed": printed, "shown": shown()}


def main():
    gdb.events.stop.connect(lambda event: stops.append(told(event)))
    with open(os.environ["COMMANDS"]) as file, os.fdopen(int(os.environ["TOLD"]), "w") as out:
        for command in json.load(file):
            print(json.dumps(carried_out(command)), file=out, flush=True)


main()
