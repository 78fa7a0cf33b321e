"""What the commands of the machine have in common."""
import gdb


def refuse(words: str) -> None:
    if words:
        raise gdb.GdbError("This command takes no arguments.")


class Command(gdb.Command):
    """A command, whose help is its class's, and whose name is the class's in small letters."""

    name = ""
    completion = gdb.COMPLETE_EXPRESSION

    def __init__(self) -> None:
        kind = [] if self.completion is None else [self.completion]
        super().__init__(self.name or type(self).__name__.lower(), gdb.COMMAND_USER, *kind)

    def invoke(self, words: str, _from_terminal: bool) -> None:
        try:
            self.carry_out(words.strip())
        except gdb.error as fault:
            raise gdb.GdbError(str(fault)) from None
