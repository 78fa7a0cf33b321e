"""GNU binutils for the System/390, which assemble and link for the machine too."""
import pathlib
import re
import subprocess
import tempfile

from common import Fault

PREFIX = "s390x-linux-gnu-"
# What a name of an object deck can be, and GNU as can take.
NAME = re.compile(r"[\w$#@]+")


def run(tool, *words):
    """What a tool says. Its own line tells a fault."""
    try:
        done = subprocess.run([PREFIX + tool, *map(str, words)], capture_output=True, text=True, errors="replace")
    except FileNotFoundError:
        raise Fault(f"{PREFIX}{tool}: not installed: type tools/setup asm") from None
    if done.returncode:
        raise Fault(done.stderr.strip())
    return done.stdout


def link(assembled, out, at, start):
    """Links an assembled file whose .text goes to an address."""
    script = pathlib.Path(assembled).with_suffix(".ld")
    script.write_text(f"SECTIONS {{ .text {at:#x} : {{ *(.text) }} }}\n")
    run("ld", "-m", "elf_s390", "-N", "--no-warn-rwx-segments", "-T", script, "-e", start, "-o", out, assembled)


def elf_of(program, symbols):
    """An ELF of a program, with the address and length of each symbol, for gdb."""
    first = min(at for at, _ in program.runs)
    ends = [at + len(part) for at, part in program.runs] + [at + length for at, length in symbols.values()]
    image = bytearray(max(ends) - first)
    for at, part in program.runs:
        image[at - first : at - first + len(part)] = part
    with tempfile.TemporaryDirectory() as folder:
        folder = pathlib.Path(folder)
        (folder / "image").write_bytes(image)
        lines = [f'.text\n.Lfirst: .incbin "{folder}/image"']
        for name, (at, length) in symbols.items():
            if not NAME.fullmatch(name):
                continue
            lines.append(f'.globl "{name}"\n.type "{name}",%function\n.size "{name}",{length}')
            lines.append(f'.set "{name}",.Lfirst+{at - first}')
        (folder / "program.s").write_text("\n".join(lines) + "\n")
        run("as", "-m31", "-mesa", "--no-pad-sections", "-o", folder / "program.o", folder / "program.s")
        link(folder / "program.o", folder / "program.elf", first, f"{program.start:#x}")
        return (folder / "program.elf").read_bytes()
