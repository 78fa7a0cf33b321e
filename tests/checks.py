"""The check of one crate by one job, over the libraries below it as they are built."""
import importlib.machinery
import importlib.util
import pathlib
import shutil

TOP = pathlib.Path(__file__).resolve().parent.parent


def builder():
    """The script `build`, whose name has no ending, as a module."""
    loader = importlib.machinery.SourceFileLoader("build", str(TOP / "build"))
    module = importlib.util.module_from_spec(importlib.util.spec_from_loader("build", loader))
    loader.exec_module(module)
    return module


def crates_up_to(name, build):
    """A crate and those that it stands on, by their names, as the builder knows them."""
    return build.crates_of([name], pathlib.Path(shutil.which("rt")).resolve().parent.parent)


def library_of(name):
    """The library that `build` made of a crate, or else `rt ci`."""
    proved, ran = (TOP / "crates" / name / "out" / part / f"{name}.rlib" for part in ("proved", "rlib"))
    return proved if proved.exists() else ran


def check_of(name, kept):
    """The command that checks a crate in its folder, and keeps each part of its proof in another folder."""
    build = builder()
    build.library_of = library_of
    words = crates_up_to(name, build)[name].commands(1)[0]
    words[words.index("build")] = "check"
    for option in ("-o", "--backend", "--toolchain"):
        if option in words:
            at = words.index(option)
            del words[at : at + 2]
    return [*(word for word in words if word != "--statements"), "--incremental", kept]
