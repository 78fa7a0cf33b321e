"""A debugger of the second machine that keeps what is taken back. Source: docs/reference/gdb.md."""
from .debugger import Debugger


class Recording(Debugger):
    """A debugger whose events stay recorded once they are taken back.

    An event of a change is its name and its fields, since two patches of one kind may differ."""

    def __init__(self, *media, **options):
        super().__init__(*media, **options)
        self.later = []  # changes that were taken back, the next one last
        self.fields = ()
        self.dropped = 0

    def happen(self, event, act):
        event = event if isinstance(event, tuple) else (event, self.fields)
        if self.later and self.later[-1].event == event:
            self.later.pop()
        else:
            self.dropped += len(self.later)
            self.later.clear()
        super().happen(event, act)

    def take_back(self):
        self.later.append(self.changes[-1])
        return super().take_back()[0]

    def answer_patch(self, kind, *words):
        digits = words[-1].lower()
        value = digits if kind == "s" else int(digits, 16)
        fields = *(int(word, 16) for word in words[:-1]), value
        return self.with_fields(fields, super().answer_patch, kind, *words)

    def answer_enter(self, text):
        return self.with_fields((text,), super().answer_enter, text)

    def with_fields(self, fields, answer, *words):
        """Answers a line whose event, if it isn't refused, has these fields."""
        self.fields = fields
        try:
            return answer(*words)
        finally:
            self.fields = ()

    def answer_withdraw(self, count):
        rest, self.later = self.later, []
        answer = super().answer_withdraw(count)
        is_withdrawn = answer != ["no such change"]
        self.later = [] if is_withdrawn else rest
        self.dropped = len(rest) if is_withdrawn else 0
        return answer
