# What gdb is told of the machine before it is connected.

# A start with large files may take longer than the two seconds that gdb waits.
set remotetimeout 600

# Signs are those of EBCDIC.
set target-charset IBM037

python
class Renew(gdb.Command):
    """Look at the machine anew, if the last line of monitor moved it.

What gdb has kept of the machine is dropped, each watch takes its value anew, and gdb stops."""

    def __init__(self):
        super().__init__("s360-renew", gdb.COMMAND_RUNNING)

    def invoke(self, _words, _from_terminal):
        if gdb.selected_inferior().connection.send_packet("qs360.moved") != b"1":
            return
        gdb.execute("maintenance flush register-cache", to_string=True)
        gdb.execute("maintenance flush dcache", to_string=True)
        for point in gdb.breakpoints():
            if point.type == gdb.BP_HARDWARE_WATCHPOINT and point.enabled:
                point.enabled = False
                point.enabled = True
        gdb.execute("stepi")


class Refuse(gdb.Command):
    """Refuse a command, for these words."""

    def __init__(self):
        super().__init__("s360-refuse", gdb.COMMAND_OBSCURE)

    def invoke(self, words, _from_terminal):
        raise gdb.GdbError(words)


Renew()
Refuse()
end

define hookpost-monitor
  s360-renew
end

# gdb's own record would take back by patches.
define hook-record
  s360-refuse The machine keeps a record by itself: go back by reverse-stepi and reverse-continue.
end
define record hook-full
  s360-refuse The machine keeps a record by itself: go back by reverse-stepi and reverse-continue.
end
define record hook-btrace
  s360-refuse The machine keeps a record by itself: go back by reverse-stepi and reverse-continue.
end
define target hook-record-full
  s360-refuse The machine keeps a record by itself: go back by reverse-stepi and reverse-continue.
end
define target hook-record-btrace
  s360-refuse The machine keeps a record by itself: go back by reverse-stepi and reverse-continue.
end
