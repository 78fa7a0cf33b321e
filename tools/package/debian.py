"""What Debian wants of a package: what it is, its changes, and its licences. Source: Debian Policy Manual."""
import datetime
import email.utils
import pathlib
import re
import subprocess
import tempfile
import textwrap
from typing import NamedTuple

from common import Fault

NAME, ARCHITECTURE = "s360dbg", "amd64"
DEVELOPERS = "The s360dbg developers <maintainers@users.noreply.sigbodun.example>"
RELEASE = re.compile(r"^## (\S+), (\d{4}-\d\d-\d\d)\n(.*?)(?=^## |\Z)", re.S | re.M)
CONTROL = """\
Package: {name}
Version: {version}
Architecture: {architecture}
Maintainer: {developers}
Installed-Size: {size}
Depends: {libraries}, gdb-multiarch, python3 (>= 3.10)
Recommends: binutils-s390x-linux-gnu
Suggests: sqlite3
Section: devel
Priority: optional
Description: debugger for a simulated IBM System/360 that steps backwards
 You go back from a damaged value to the instruction, channel program or
 key that spoilt it: each step says what it altered, and each step back
 restores it exactly. It works by scripts and from gdb.
 .
 The machine has the standard instruction set, interruptions, the timer,
 storage protection, a card reader and punch, a printer, a console and
 two tapes. Tools make decks and tapes of sources, texts and object decks.
"""
COPYRIGHT = """\
Format: https://www.debian.org/doc/packaging-manuals/copyright-format/1.0/

Files: *
Copyright: {holders}
License: Expat or Apache-2.0

License: Expat
{terms}

License: Apache-2.0
 On Debian systems it is in /usr/share/common-licenses/Apache-2.0.
"""
# A program of the simulated machine is an example.
TAGS_OF_ELF = ("arch-dependent-file-in-usr-share", "binary-from-other-architecture")
TAGS_OF_ELF += ("statically-linked-binary", "unstripped-binary-or-object")
OVERRIDES = "".join(f"{NAME}: {tag} [usr/share/doc/{NAME}/examples/*.elf]\n" for tag in TAGS_OF_ELF)


class Release(NamedTuple):
    version: str
    date: datetime.datetime
    changes: list[str]


def releases_of(changes):
    """The versions of CHANGELOG.md, the last one first."""
    found = []
    for version, date, text in RELEASE.findall(changes):
        told = [" ".join(change.split()) for change in re.split(r"^- ", text, flags=re.M)[1:]]
        try:
            found.append(Release(version, datetime.datetime.fromisoformat(f"{date}T00:00:00+00:00"), told))
        except ValueError:
            raise Fault(f"CHANGELOG.md: {date} is no date") from None
    if not found:
        raise Fault("CHANGELOG.md: it has no version: write a line as ## 0.1.0, 2026-12-01")
    return found


def changelog(releases):
    """The changes of each version in Debian's form."""
    parts = []
    for version, date, changes in releases:
        told = [textwrap.fill(change, 79, initial_indent="  * ", subsequent_indent="    ") for change in changes]
        signed = f" -- {DEVELOPERS}  {email.utils.format_datetime(date)}"
        parts.append("\n".join([f"{NAME} ({version}) unstable; urgency=low", "", *told, "", signed, ""]))
    return "\n".join(parts)


def copyright_of(licence):
    """The licences, of which one is the text of the MIT licence."""
    _, holders, *terms = licence.strip().split("\n\n")
    lines = (f" {line or '.'}" for line in "\n\n".join(terms).splitlines())
    return COPYRIGHT.format(holders=holders.removeprefix("Copyright (c) "), terms="\n".join(lines))


def control(version, libraries, files):
    """What the package is. Its size is in units of 1,024 bytes."""
    size = sum(-(-file.stat().st_size // 1024) for file in files)
    words = {"name": NAME, "architecture": ARCHITECTURE, "developers": DEVELOPERS}
    return CONTROL.format(**words, version=version, libraries=libraries, size=size)


def said_by(*words, **how):
    """What a command writes on standard output."""
    try:
        done = subprocess.run([*map(str, words)], capture_output=True, **how)
    except FileNotFoundError:
        raise Fault(f"{words[0]}: not installed: type tools/setup package") from None
    if done.returncode:
        raise Fault(f"{words[0]}: {done.stderr.decode(errors='replace').strip()}")
    return done.stdout


def libraries_of(programs):
    """The packages, with their versions, that programs depend on."""
    with tempfile.TemporaryDirectory() as folder:
        # It is told of a source package, of which there has to be a name.
        source = pathlib.Path(folder, "debian/control")
        source.parent.mkdir()
        source.write_text(f"Source: {NAME}\n\nPackage: {NAME}\nArchitecture: {ARCHITECTURE}\n")
        told = said_by("dpkg-shlibdeps", "-O", *programs, cwd=folder)
    return told.decode().strip().removeprefix("shlibs:Depends=")


def zipped(contents):
    return said_by("gzip", "-9n", input=contents)
