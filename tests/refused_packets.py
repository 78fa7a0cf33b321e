"""What s360gdb may answer to a row of packets if one growth of memory is refused.

The request for which memory is wanting is answered `E0c`. Of what it asks nothing is done then, or
some first events stand, or all is done and the answer alone is lost; one that goes back has taken some last
changes back; an inquiry leaves the recording at some change. All other answers are those of a target that stands there: the second one
(`second/remote.py`) tells them. If a growth is wanted
where nothing can be answered, the program ends with status 1. What it has answered is then the
beginning of the row's answers.

Behind the packets of a row, but before gdb leaves, others lead back to the start: they take out
each point that the row sets, go back by `bc`, of which two may tell what was still to be told, and
ask for the registers and for the storage that the row altered, which have to be what they were. Of
all these only the answers take memory.
"""
import functools
import itertools
import os
import re
from typing import NamedTuple

from packet_fuzz import FETCH, Connection, deck_of
from packet_rows import framed, row_of
from second.core import SIZE as STORAGE
from second.inquiries import FORMS as INQUIRIES
from second.recording import Recording
from second.remote import MALFORMED, MEMORY, OK, Target

OUT_OF_MEMORY = "s360gdb: memory: out of memory"
AT_THE_START = b"T05replaylog:begin;"
LEAVE = re.compile(rb"\$(?:D|k|vKill;[0-9a-f]+)#")
SET_POINT = re.compile(rb"\$Z([0-4],[0-9a-f]+,[0-9a-f]+)#")
# Altered storage is asked for in whole blocks.
BLOCK = 256
# Nothing was done, or nothing but that the line before is the last one no longer.
NOT_AT_ALL, BEGUN = -1, -2
LINE = b"qRcmd,"
GOING_BACK = (b"bs", b"bc")
# What is answered to no request, and what is not answered.
NEED_NONE = ([], [b""], [MALFORMED])
SHOWN = 300


class WantOfMemory(Exception):
    """An event gets no memory."""


class LackingRecording(Recording):
    """A recording that can lack memory for events, and knows which bytes were altered."""

    def __init__(self, *media, **options):
        super().__init__(*media, **options)
        self.events_left = self.backs_left = None  # no bound
        self.altered = set()

    def happen(self, event, act):
        if self.events_left is not None:
            if self.events_left == 0:
                raise WantOfMemory
            self.events_left -= 1
        super().happen(event, act)
        places = self.changes[-1].places
        self.altered.update(int(place[1:], 16) for place in places if place.startswith("s"))


    def take_back(self):
        """What was taken back is looked at, which takes memory."""
        event = super().take_back()
        if self.backs_left is not None:
            self.backs_left -= 1
            if self.backs_left == 0:
                raise WantOfMemory
        return event


class LackingTarget(Target):
    """A target that lacks memory at one request, of which at most so many events stand then, or which has taken so many
    changes back; or which is an inquiry, and leaves the recording at the change of this number."""

    recording_type = LackingRecording

    def __init__(self, row, request=None, events=0, number=None, backs=None):
        super().__init__(deck_of(row.words), protects_fetches=FETCH in row.words)
        self.request, self.events, self.number, self.backs = request, events, number, backs
        self.answers = []  # to each request
        self.is_done = False  # the request, and its answer alone is lost

    def answer(self, data):
        lacks = len(self.answers) == self.request
        answers = self.answer_lost(data) if lacks else super().answer(data)
        self.answers.append(answers)
        return answers

    def answer_lost(self, data):
        told = list(self.told)
        if self.number is not None:
            self.stand_at_change(data)
        elif self.backs is not None:
            self.go_partly_back(data)
        elif self.events == BEGUN:
            self.is_moved = False
        elif self.events != NOT_AT_ALL:
            self.recording.events_left = self.events
            try:
                super().answer(data)
                self.is_done = True
            except WantOfMemory:
                pass
            self.recording.events_left = None
        self.told, self.ended = told, False
        return [MEMORY]

    def go_partly_back(self, data):
        """Any request but those that go back has done nothing."""
        self.is_done = True
        if data in GOING_BACK:
            self.recording.backs_left = self.backs
            try:
                super().answer(data)
            except WantOfMemory:
                self.is_done = False
            self.recording.backs_left = None

    def stand_at_change(self, data):
        """What an inquiry has done by then; any other request has done nothing."""
        recorded, stands = self.inquiries.recorded, self.inquiries.standing
        self.is_done = not is_inquiry(data) or self.number >= recorded
        if is_inquiry(data):
            self.inquiries.go_to(min(self.number, recorded))
            self.is_moved = self.inquiries.standing != stands


def is_inquiry(data):
    """Whether it goes elsewhere in the recording: the line that saves a trace does too."""
    words = bytes.fromhex(data[len(LINE) :].decode()).split() if data.startswith(LINE) else []
    return bool(words) and (words[0] in INQUIRIES or words[1:2] == [b"trace"])


class NotingConnection(Connection):
    """A connection that notes where the answer to each packet ends, and after how many requests."""

    def __init__(self, target):
        super().__init__(target)
        self.ends = []

    def answer(self, packet):
        super().answer(packet)
        self.ends.append((len(self.answered), len(self.target.answers)))


class Outcome(NamedTuple):
    """What is answered and told, whether that leads back to the start, and whether the request that
    lacks memory was done."""

    answered: bytes
    told: list[str]
    leads_back: bool
    is_done: bool

    def is_what_came(self, answered, told):
        return self.leads_back and (answered, told) == (self.answered, self.told)


class Conversation:
    """A row of packets with what leads back to the start, and what may be answered.

    Runs have to be told in the order of the growths that are refused."""

    def __init__(self, file):
        row = row_of(file)
        self.row, self.words = row, row.words
        leave = LEAVE.search(row.sent)
        end = leave.start() if leave else len(row.sent)
        before, behind = row.sent[:end], row.sent[end:]
        target = self.connection(before).target
        points = dict.fromkeys(b"z" + point for point in SET_POINT.findall(before))
        asked = [b"g", *storage_requests(target.recording.altered)]
        fresh = Target(deck_of(row.words), protects_fetches=FETCH in row.words)
        self.first_back = len(target.answers)
        self.back = [[OK]] * len(points) + [None, None, [AT_THE_START], *map(fresh.answer, asked)]
        self.sent = before + b"".join(map(framed, [*points, *[b"bc"] * 3, *asked])) + behind
        whole = self.connection(self.sent)
        self.whole, self.ends = self.outcome_of(whole), [(0, 0), *whole.ends]
        self.answers = whole.target.answers
        self.lacked = set()  # the requests that were answered `E0c`
        self.reached = 0  # so many bytes were answered before the last one of them

    def connection(self, sent, **lack):
        """The connection once this was sent to a target that lacks memory so."""
        connection = NotingConnection(LackingTarget(self.row, **lack))
        connection.take(sent)
        return connection

    def outcome_of(self, connection):
        """What came over a connection."""
        target = connection.target
        back = target.answers[self.first_back :][: len(self.back)]
        leads_back = all(want is None or came in (want, [MEMORY]) for came, want in zip(back, self.back))
        return Outcome(connection.answered, target.told, leads_back, target.is_done)

    @functools.cache
    def outcome(self, request, **lack):
        return self.outcome_of(self.connection(self.sent, request=request, **lack))

    def outcomes(self, request):
        """What may come of want of memory at a request."""
        for kind, first in (("events", BEGUN), ("number", 0), ("backs", 1)):
            for count in itertools.count(first):
                outcome = self.outcome(request, **{kind: count})
                yield outcome
                if outcome.is_done:
                    break

    def fault_of(self, done):
        """What is wrong with a run in which a growth was refused, or none was."""
        told = done.stderr.decode(errors="replace").splitlines()
        if done.returncode == 1 and told[-1:] == [OUT_OF_MEMORY]:
            return self.fault_of_end(done.stdout, told[:-1])
        if done.returncode != 0:
            return f"status {done.returncode}: {told}"
        return self.fault_of_answers(done.stdout, told)

    def fault_of_end(self, answered, told):
        """What is wrong with what was answered before the program ended for want of memory."""
        is_begun = told == self.whole.told[: len(told)] and self.whole.answered.startswith(answered)
        if is_begun and len(answered) >= self.reached:
            return None
        return f"{len(answered)} bytes, of {self.reached}, before it ends: {answered[-SHOWN:]}"

    def fault_of_answers(self, answered, told):
        """What is wrong with what was answered, and told, to the end."""
        if self.whole.is_what_came(answered, told):
            return None
        same = len(os.path.commonprefix([answered, self.whole.answered]))
        self.reached, before = max(end for end in self.ends if end[0] <= same)
        if before == len(self.answers):
            return f"more is answered: {answered[same:][:SHOWN]}"
        self.lacked.add(before)
        if any(outcome.is_what_came(answered, told) for outcome in self.outcomes(before)):
            return None
        return f"from request {before} on no target answers so: {answered[same:][:SHOWN]}, {told}"

    def faults_at_the_end(self):
        """Each request that is known and right lacks memory at some growth, if it is answered."""
        for request, answers in enumerate(self.answers):
            if answers not in NEED_NONE and request not in self.lacked:
                yield f"no growth was refused at request {request}, answered {answers}"


class NoPacket:
    """What sets the program up, and no packet."""

    sent = b""

    def __init__(self, words):
        self.words = words

    def fault_of(self, done):
        ends = (0, b""), (1, f"{OUT_OF_MEMORY}\n".encode())
        if (done.returncode, done.stderr) in ends and done.stdout == b"":
            return None
        return f"status {done.returncode}: {done.stderr}, and it answers {done.stdout}"

    def faults_at_the_end(self):
        return ()


def storage_requests(addresses):
    """The requests for the blocks of storage in which these bytes are."""
    blocks = {at // BLOCK for at in addresses}
    first = None
    for block in range(STORAGE // BLOCK + 1):
        if block in blocks and first is None:
            first = block
        elif block not in blocks and first is not None:
            yield b"m%x,%x" % (first * BLOCK, (block - first) * BLOCK)
            first = None
