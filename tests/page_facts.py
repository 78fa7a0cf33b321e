"""What pages are made of in tests: runs of the second machine, their files, and facts about them that a page has to show.

A run is what a script does before its first line that takes changes back. Sources: docs/reference/page.md, gdb.md.
"""
import bisect
import pathlib
import re
import shlex
import subprocess

from second.inquiries import Inquiries
from second.savings import SAVED
from second.sources import sources
from second.traces import Trace, recording_of

TOP = pathlib.Path(__file__).resolve().parent.parent
EXAMPLES = TOP / "examples"
MEDIA = ("printer", "punch", "console", "tape0", "tape1")
BACKWARD = ("back", "until", "withdraw")
# READY is typed, a line is taken, and its first byte is typed: 400 types 600, 408 takes to 610, 410 types 610.
DIALOGUE = """
patch s 200 9C00001F9D00001F47700204
patch s 48 00000400
patch s 400 09000600600000050A000610600000500900061000000001
patch s 600 D9C5C1C4E8
patch p 0000000000000200
enter YES
run 40
enter NO
"""
# 400 feeds a card, and 408 reads four columns of the next one to 600; 410 skips ten more.
FEEDS = """
patch s 200 9C00000C9D00000C47700204
patch s 48 00000400
patch s 400 23000600600000500200060080000004020007003000000A
patch p 0000000000000200
key eof
run 20
"""
FED = b"".join(f"CARD {number}".encode("cp037").ljust(80, b"\x40") for number in range(3))
OWN = {"dialogue": (DIALOGUE, b""), "feeds": (FEEDS, FED)}
# The rows that are punched for each sign (GA22-6821, Appendix F), worked by hand.
HOLES = {" ": 0, "&": 1, "-": 1, "/": 2} | dict.fromkeys("0123456789", 1)
HOLES |= dict.fromkeys("ABCDEFGHIJKLMNOPQRSTUVWXYZ:#@'=\"", 2) | dict.fromkeys(".<(+|!$*);,%_>?", 3)


class Example:
    """A run of the second machine, with the files that are saved of it in a folder."""

    def __init__(self, name, folder):
        self.name, self.folder = name, folder / name
        self.folder.mkdir(exist_ok=True)
        self.text, self.symbols, self.deck = self.script()
        self.recording = recording_of(self.text, deck=self.deck, images=self.images)
        self.inquiries = Inquiries(self.recording)
        self.machine, self.changes = self.recording.machine, self.recording.changes
        self.save()

    def script(self):
        """The bytes of the script, the file of symbols if there is one, and the deck."""
        self.images = (b"", b"")
        if self.name in OWN:
            script, deck = OWN[self.name]
            return script.encode(), None, deck
        (file,) = EXAMPLES.rglob(f"{self.name}.s360")
        lines = file.read_text().splitlines()
        words = shlex.split(lines[0])
        files = {word: (TOP / words[at + 1]).read_bytes() for at, word in enumerate(words[:-1]) if word.startswith("--")}
        self.images = tuple(files.get(f"--tape{number}", b"") for number in (0, 1))
        symbols = file.with_suffix(".listing")
        backward = [at for at, line in enumerate(lines) if line.startswith(BACKWARD)]
        script = "\n".join(lines[: min(backward, default=len(lines))])
        return script.encode(), symbols if symbols.exists() else None, files.get("--reader", b"")

    def save(self):
        (self.folder / "trace").write_text(Trace(self.inquiries).text())
        for medium in MEDIA:
            (self.folder / medium).write_bytes(SAVED[medium.encode()](self.machine)[0])
        (self.folder / "reader").write_bytes(self.deck)

    def words(self):
        """The words of make_page."""
        words = [word for medium in MEDIA for word in (f"--{medium}", self.folder / medium)]
        words += ["--reader", self.folder / "reader"] if self.deck else []
        words += ["--symbols", self.symbols] if self.symbols else []
        return [*map(str, words), "--title", self.name, str(self.folder / "trace")]

    def words_of_program(self):
        """The words of s360gdb."""
        words = ["--reader", self.folder / "reader"] if self.deck else []
        for number, image in enumerate(self.images):
            if image:
                file = self.folder / f"image{number}"
                file.write_bytes(image)
                words += [f"--tape{number}", file]
        return words

    def lines(self):
        """The lines of the script that are carried out."""
        return [line for line in self.text.decode().splitlines() if line.strip() and line[0] != "*"]

    # Facts.

    def stores(self, place):
        return [number for number, change in enumerate(self.changes, 1) if place in change.noted]

    def event(self, number):
        return self.changes[number - 1].event[0]

    def events_of(self, name):
        return sum(change.event[0] == name for change in self.changes)

    def look_at_all(self):
        """Finds what each change stored and what of, in one way forward, and the changes that stored into each place."""
        self.changes, self.at, self.made = list(self.changes), {}, {}
        for number, change in enumerate(self.changes, 1):
            self.inquiries.go_to(number - 1)
            found = sources(self.machine, *change.event)
            self.made[number] = {place: found.get(place, [place]) for place in change.noted}
            for place in change.noted:
                self.at.setdefault(place, []).append(number)
        self.inquiries.go_to(len(self.changes))

    def causes(self, place, number):
        """All that a place was made of after a change: each place with the number of the change that stored it. The PSW is not
        followed."""
        found, left = set(), [(place, number)]
        while left:
            place, last = left.pop()
            numbers = self.at.get(place, [])
            earlier = bisect.bisect_right(numbers, last)
            if not earlier or (cause := (place, numbers[earlier - 1])) in found:
                continue
            found.add(cause)
            left += [(source, cause[1] - 1) for source in self.made[cause[1]][place] if source != "p"]
        return found

    def printed_by(self):
        """The number of the change that printed each line."""
        counts = [0]
        for number in self.stores("d00E"):
            self.inquiries.go_to(number)
            count = len(self.machine.device(0x00E).records)
            counts += [number] * (count - len(counts) + 1)
        return counts[1:]

    def printed(self):
        """Of each page the lines that were printed, and the texts of each, in order."""
        pages = {}
        for at, line in self.machine.device(0x00E).records:
            text = "".join(self.sign(byte) for byte in line).rstrip()
            pages.setdefault(at.page, []).append((at.line, text))
        return pages

    @staticmethod
    def sign(byte):
        sign = bytes([byte]).decode("cp037")
        return sign if sign in HOLES or sign.isascii() and sign.isalnum() else "."


def assembled(source, version, folder):
    """The ELF file that GNU as and ld make of a source, with lines of a version of DWARF."""
    made = folder / f"{source.stem}.{version}.elf"
    assembler = ["s390x-linux-gnu-as", "-m31", f"-gdwarf-{version}", "-o", made.with_suffix(".o"), source]
    subprocess.run(assembler, check=True)
    linker = ["s390x-linux-gnu-ld", "-m", "elf_s390", "-Ttext=0", "-e", "0", "-o", made, made.with_suffix(".o")]
    subprocess.run(linker, check=True)
    return made


def lines_by_binutils(file):
    """Of each line of a program its file, its number and its address."""
    words = ["s390x-linux-gnu-readelf", "--debug-dump=decodedline", file]
    told = subprocess.run(words, capture_output=True, text=True, check=True).stdout
    found = re.findall(r"^(\S+)\s+(\d+)\s+(0x[0-9a-f]+|0)\s", told, re.MULTILINE)
    return {(name, int(line), int(address, 16)) for name, line, address in found}


def long_trace(events):
    """A trace of many events: registers and storage are stored into in turn, and a printer has some events."""
    values = {}
    lines = ["number,event,address,instruction,mnemonic,place,before,after,sources"]

    def store(head, place, value, made_of):
        lines.append(f"{head},{place},{values.get(place, value)},{value},{made_of}")
        values[place] = value

    for number in range(1, events + 1):
        step, address = number % 10, 0x200 + 4 * (number % 10) + number // 5000 % 8 * 0x40
        if number % 1000 == 0:
            lines.append(f"{number},channel 00E,000600,0900080000000050,,u00E,idle,idle,u00E d00E")
            continue
        head = f"{number},cpu,{address:06X},5010{0x800 + step:04X},ST"
        store(head, "p", f"{address + 4:016X}", "p")
        at = 0x800 + number * 4 // 3 % 2048
        for byte in range(4 if step >= 5 else 0):
            store(head, f"s{at + byte:06X}", f"{number >> 8 * byte & 255:02X}", f"r{step - 5}")
        if step < 5:
            store(head, f"r{step}", f"{number:08X}", f"r{step + 1} s{at:06X}-{at + 3:06X}")
    return "".join(f"{line}\n" for line in lines)
