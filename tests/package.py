#!/usr/bin/env python3
"""Looks at Debian's package: how it is made, what is in it, and that what it installs does what the pages say.

    tests/package.py [--programs S360DBG S360GDB] [--unproved]

It is installed into an empty root, with no kit on the PATH, and tried outside of the repository. That the same sources make the
same package, and what is said of wrong ones, is looked at with programs in C that tell a version and no more. The last line says
how many looks passed.
"""
import argparse
import os
import pathlib
import re
import shutil
import subprocess
import sys
import tempfile

import documents
import tally
import typed

TOP = pathlib.Path(__file__).resolve().parent.parent
COMMANDS = ("s360dbg", "s360gdb", "s360-gdb", "s360as", "s360-make-deck", "s360-make-tape", "s360-what", "s360-as-text", "s360-page")
TYPED = ("README.md", "guide.md", "reference/media.md")
MANUAL = ("s360dbg", "s360gdb", "s360-gdb", "s360-media", "s360-page")
DOC, SHARED, MAN = "usr/share/doc/s360dbg", "usr/share/s360dbg", "usr/share/man/man1"
# Where files of the repository are installed, and what is installed beside them.
PLACES = {f"tools/{tools}/": f"{SHARED}/{tools}/" for tools in ("asm", "gdb", "media", "page")}
PLACES |= {f"docs/{name}": f"{DOC}/{name}" for name in ("guide.md", "time.svg", "reference/")}
PLACES |= {"README.md": f"{DOC}/README.md", "examples/": f"{DOC}/examples/", ".vscode/": f"{DOC}/vscode/"}
OWN = {*(f"usr/bin/{name}" for name in COMMANDS), *(f"{MAN}/{name}.1.gz" for name in (*COMMANDS, "s360-media"))}
OWN |= {f"{DOC}/changelog.gz", f"{DOC}/copyright", "usr/share/lintian/overrides/s360dbg"}
RIGHTS = {"drwxr-xr-x", "-rwxr-xr-x", "-rw-r--r--", "lrwxrwxrwx"}
# What has to be found in the repository alone.
OF_THE_REPOSITORY = re.compile(rf"\./(?:run|gdb|page|build)\b|--unproved|(?<![\w/$])(?:tools|crates|docs)/|{re.escape(str(TOP))}")
INSTALLED = re.compile(r"/(usr/share/(?:doc/)?s360dbg[\w./-]*)")
OPTION = re.compile(r"(?<![\w-])--?[a-zA-Z][\w-]*")
GENERAL = {"-h", "--help", "-V", "--version"}
VERSION, DATE = re.search(r"(?m)^## (\S+), (\S+)$", (TOP / "CHANGELOG.md").read_text()).groups()
PROGRAM = f'int puts(const char *);\nint main(void) {{ return puts("s360dbg {VERSION}") < 0; }}\n'
SECONDS = 300


def done(*words, **how):
    return subprocess.run([*map(str, words)], **{"capture_output": True, "text": True, "timeout": SECONDS, **how})


def files_of_repository(*patterns):
    return done("git", "ls-files", *patterns, cwd=TOP, check=True).stdout.splitlines()


def differs(what, wanted, got):
    if wanted != got:
        yield f"{what} has to be {wanted!r}, and is {got!r}"


class Copy:
    """A copy of what a package is made of, and its programs: those of this script's own, if none are given."""

    def __init__(self, folder, programs=()):
        self.folder = folder
        for name in files_of_repository("tools", "docs", "examples", ".vscode", "*.md", "LICENSE-*"):
            place = folder / name
            place.parent.mkdir(parents=True, exist_ok=True)
            shutil.copy2(TOP / name, place)
        self.programs = [*programs] or [folder / name for name in ("s360dbg", "s360gdb")]
        if not programs:
            (folder / "program.c").write_text(PROGRAM)
            for program in self.programs:
                done("cc", "-o", program, "program.c", cwd=folder, check=True)

    def spoil(self, name, before, after):
        text = (self.folder / name).read_text()
        (self.folder / name).write_text(text.replace(before, after))

    def make(self, *words, **how):
        return done(self.folder / "tools/package/make_package", *words, *self.programs, **how)

    def made(self, *words, **how):
        """The file of the package."""
        return pathlib.Path(self.make(*words, check=True, **how).stdout.strip())


def faults_of_making(folder):
    """The same files make the same package wherever, whenever and by whomever, and whatever stands beside them."""
    first, other = Copy(folder / "first"), Copy(folder / "another place")
    for name in ("tools/gdb/__pycache__/x.pyc", "tools/media/.what.swp", "examples/cards.deck~", "docs/reference/gdb.md~"):
        (other.folder / name).parent.mkdir(exist_ok=True)
        (other.folder / name).write_text("not meant")
    for path in other.folder.rglob("*"):
        os.utime(path, (10**9, 10**9))
    elsewhere = other.made(env={**os.environ, "TZ": "Asia/Tokyo", "LC_ALL": "C"}, umask=0o077, cwd="/")
    if first.made().read_bytes() != elsewhere.read_bytes():
        yield "it is another one elsewhere"
    dated = first.made(env={**os.environ, "SOURCE_DATE_EPOCH": "86400"})
    yield from differs("the date of each file", {"1970-01-02"}, {row[3] for row in contents_of(dated)})


def faults_of_wrong_sources(folder):
    """What is wrong is told in one line, and no package is made."""
    copy = Copy(folder / "wrong")
    commands = folder / "commands"
    commands.mkdir()
    for name in ("env", "gzip", "python3", "strip"):
        (commands / name).symlink_to(shutil.which(name))

    def tells(line, **how):
        ended = copy.make(**how)
        yield from differs("what is told", (1, "", f"{line}\n"), (ended.returncode, ended.stdout, ended.stderr))

    yield from tells("dpkg-shlibdeps: not installed: type tools/setup package", env={"PATH": str(commands)})
    yield from tells("SOURCE_DATE_EPOCH: 'now' is no number of seconds", env={**os.environ, "SOURCE_DATE_EPOCH": "now"})
    copy.spoil("docs/guide.md", "Editors start it, once it is built, as", "Editors start it as")
    yield from tells("tools/package/wording.py: no page says: Editors start it, once it is built, as")
    copy.spoil("CHANGELOG.md", f"## {VERSION}, ", f"## {VERSION}.1, ")
    yield from tells(f"CHANGELOG.md: it begins with {VERSION}.1, and the version of s360dbg is {VERSION}")
    copy.spoil("CHANGELOG.md", f", {DATE}", ", 2026-99-01")
    yield from tells("CHANGELOG.md: 2026-99-01 is no date")
    copy.spoil("CHANGELOG.md", "## ", "### ")
    yield from tells("CHANGELOG.md: it has no version: write a line as ## 0.1.0, 2026-12-01")
    copy.programs[1].unlink()
    yield from tells(f"{copy.programs[1]}: No such file or directory")
    yield from differs("the status of a wrong option", 2, copy.make("--unprovd").returncode)
    yield from differs("what is made", [], [*copy.folder.glob("out/*.deb")])


def contents_of(package):
    """The rights, owner, length, date, time and name of each file."""
    lines = done("dpkg-deb", "--contents", package, check=True).stdout.splitlines()
    return [line.split(maxsplit=5) for line in lines]


def faults_of_contents(package):
    """Root owns each file; none is there that is not meant, and none is missing."""
    rows = contents_of(package)
    yield from differs("the owner", {"root/root"}, {row[1] for row in rows})
    yield from (f"{row[5]} has the rights {row[0]}" for row in rows if row[0] not in RIGHTS)
    names = {row[5].partition(" -> ")[0].removeprefix("./") for row in rows if row[0][0] != "d"}
    wanted = {*OWN}
    for name in files_of_repository():
        wanted |= {place + name.removeprefix(start) for start, place in PLACES.items() if name.startswith(start)}
    yield from (f"no {name}" for name in sorted(wanted - names))
    yield from (f"{name} is not meant" for name in sorted(names - wanted))


class Root:
    """An empty root, in which the package is installed. gdb and python are those of this machine."""

    def __init__(self, folder, package):
        self.folder, self.home = folder / "root", folder / "home"
        for place in (self.folder / "var/lib/dpkg/info", self.folder / "var/lib/dpkg/updates", self.home):
            place.mkdir(parents=True)
        (self.folder / "var/lib/dpkg/status").touch()
        self.dpkg("--install", package)
        path = os.pathsep.join([str(self.folder / "usr/bin"), "/usr/bin", "/bin"])
        self.environment = {"PATH": path, "HOME": str(self.home), "LC_ALL": "C.UTF-8", "MANWIDTH": "2000"}
        if shutil.which("rt", path=path):
            raise FileExistsError("the kit is on the PATH of what is installed")

    def dpkg(self, *words):
        forced = "--force-depends,not-root,bad-path"
        return done("dpkg", f"--root={self.folder}", f"--log={os.devnull}", forced, *words, check=True)

    def done(self, *words, **how):
        return done(*words, **{"env": self.environment, "cwd": self.home, "stdin": subprocess.DEVNULL, **how})

    def furnish(self, folder):
        shutil.copytree(self.folder / DOC / "examples", folder / "examples")

    def faults_of_pages(self):
        """No page and no tool names what is in the repository alone, and what it names is there."""
        files = [path for part in (DOC, SHARED) for path in (self.folder / part).rglob("*") if path.is_file()]
        for file in files:
            text = file.read_text("latin-1")
            yield from (f"{file.name} names {found}" for found in OF_THE_REPOSITORY.findall(text))
            yield from self.faults_of_names(file.name, text)
            if file.suffix == ".md":
                yield from (f"{file.name}: {fault}" for fault in documents.faults_of_links(file))

    def faults_of_names(self, name, text):
        for found in INSTALLED.findall(text):
            if not (self.folder / found.rstrip(".")).exists():
                yield f"{name} names {found}"

    def faults_of_typed(self, page):
        yield from typed.faults_of_page(self.folder / DOC / page, self.furnish, self.environment)

    def faults_of_examples(self):
        self.furnish(self.home)
        for script in sorted((self.home / "examples").rglob("*.s360")):
            command = script.read_text().partition("\n")[0].removeprefix("* ")
            answers = script.with_suffix(".answers").read_text().splitlines()
            if typed.shown_by_shell(command, self.home, environment=self.environment) != answers:
                yield f"{command} has other answers"

    def faults_of_manual(self, page):
        """man finds no fault in a page, and its commands have the options that they tell of themselves."""
        ended = self.done("man", "--warnings", "-l", self.folder / MAN / f"{page}.1.gz", check=True)
        yield from ended.stderr.splitlines()
        yield from self.faults_of_names(page, ended.stdout)
        chapters = dict(re.findall(r"^([A-Z][A-Z ]+)\n((?: .*\n|\n)*)", ended.stdout, re.M))
        there = set()
        for line in chapters["SYNOPSIS"].split("\n"):
            if words := re.match(r"[a-z0-9 -]*(?<= )", line.strip()):
                helped = self.done(*words[0].split(), "--help").stdout.partition("\nExample")[0]
                options = {*OPTION.findall(helped)}
                yield from differs(f"the options of {words[0]}", options - GENERAL, {*OPTION.findall(line)} - {words[0]})
                there |= options
        yield from differs("the options", there, {*OPTION.findall(chapters["OPTIONS"])})

    def faults_of_wrong_words(self):
        """A fault is told, with its status, and no traceback; and a help has none."""
        for command in COMMANDS:
            for word, status in (("--help", 0), ("--wrong", 2)):
                ended = self.done(command, word)
                yield from differs(f"the status of {command} {word}", status, ended.returncode)
                told = re.sub(r"In the repository, .*?\n\n", "", ended.stdout + ended.stderr, flags=re.S)
                if found := re.search(rf"Traceback|{OF_THE_REPOSITORY.pattern}", told):
                    yield f"{command} {word} tells {found[0]}"
        (self.home / "program.s").write_text("BR 14\n")
        missing = "s390x-linux-gnu-as: not installed: type apt install binutils-s390x-linux-gnu\n"
        alone = {**self.environment, "PATH": str(self.folder / "usr/bin")}
        for words, how, line in (
            (["s360-gdb", "--symbols", "nowhere"], {}, "nowhere: No such file or directory\n"),
            (["s360-what", "nowhere"], {}, "nowhere: No such file or directory\n"),
            ([self.folder / "usr/bin/s360as", "program.s"], {"env": alone}, missing),
        ):
            ended = self.done(*words, **how)
            yield from differs(f"what {words} tells", (1, line), (ended.returncode, ended.stderr))

    def faults_of_removal(self):
        self.dpkg("--purge", "s360dbg")
        left = [path for path in self.folder.iterdir() if path.name != "var"]
        yield from (f"{path} is left" for part in left for path in (part, *part.rglob("*")))


def looks(folder, package):
    """Each look with its faults, the removal last."""
    root = Root(folder, package)
    yield "how it is made", faults_of_making(folder)
    yield "wrong sources", faults_of_wrong_sources(folder)
    yield "contents", faults_of_contents(package)
    yield "lintian", done("lintian", "--allow-root", package).stdout.splitlines()
    yield "pages", root.faults_of_pages()
    yield from ((f"what {page} has typed", root.faults_of_typed(page)) for page in TYPED)
    yield "examples", root.faults_of_examples()
    yield from ((f"man {page}", root.faults_of_manual(page)) for page in MANUAL)
    yield "wrong words", root.faults_of_wrong_words()
    yield "removal", root.faults_of_removal()


def main():
    parser = argparse.ArgumentParser(description=__doc__.partition("\n")[0])
    parser.add_argument("--programs", type=pathlib.Path, nargs=2, default=documents.PROGRAMS)
    parser.add_argument("--unproved", action="store_true", help="makes the package of programs that are not proved")
    options = parser.parse_args()
    with tempfile.TemporaryDirectory() as name:
        folder = pathlib.Path(name)
        copy = Copy(folder / "copy", [program.resolve() for program in options.programs])
        package = copy.made(*["--unproved"] * options.unproved)
        found = [(look, [*faults]) for look, faults in looks(folder, package)]
    faults = ["\n    ".join([f"{look}:", *some]) for look, some in found if some]
    return tally.end(len(found) - len(faults), faults)


if __name__ == "__main__":
    sys.exit(main())
