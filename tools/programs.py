"""What the tools share: how they answer to `--help`, by which words hcache is run, and how its requests for memory are
counted and refused."""

import argparse
import collections
import importlib.machinery
import os
import pathlib
import resource
import shutil
import subprocess
import sys
import types

import unproved as without_proof

HERE = pathlib.Path(__file__).resolve().parent.parent
COMMANDS = ("hc_prog", "hc_proxy_prog")  # the crates of the programs that have all commands
IS_INSTALLED = not (HERE / "hcache").is_file()  # as a package does it, and no repository

Ran = collections.namedtuple("Ran", "status output faults requests octets")


def help_or_go_on(words, text):
    """Ends with the text of help where it is asked for."""
    if words in (["--help"], ["-h"]):
        print(f"{text}\n", end="")
        sys.exit(0)


def refuse(text):
    """Ends where the words are none that the tool knows."""
    print(text, file=sys.stderr)
    sys.exit(64)


def need(*commands):
    """Ends where a command isn't there."""
    for command in commands:
        if not shutil.which(command):
            print(f"needs {command} in PATH", file=sys.stderr)
            sys.exit(70)


def toolchain(name):
    """A module of the toolchain's own, which lies beside `rt`."""
    file = pathlib.Path(shutil.which("rt")).resolve().parent / name
    if not file.is_file():
        print(f"the toolchain has no {file}", file=sys.stderr)
        sys.exit(70)
    found = types.ModuleType(file.stem)
    found.__file__ = str(file)
    sys.dont_write_bytecode = True
    importlib.machinery.SourceFileLoader(file.stem, found.__file__).exec_module(found)
    return found


def keeps():
    """Whether this kit keeps what `rt ci` passed, which takes names of crates there, and can be told to prove anew."""
    return "--anew" in subprocess.run(["rt", "help"], capture_output=True, text=True, check=False).stderr


def crate_here(rt):
    """The crate of this folder, over libraries of statements; `rt` is a module of the toolchain's. It ends where one of
    the libraries lacks."""
    here = os.getcwd()
    crate = rt.Crate(here, rt.root_above(here) or here, {})
    lacking = [below.name for below in crate.below() if not os.path.isdir(below.rlib)]
    if lacking:
        print(f"run `rt ci` first: no library of {', '.join(lacking)}", file=sys.stderr)
        sys.exit(70)
    os.makedirs("out", exist_ok=True)
    return crate


class Options(argparse.ArgumentParser):
    """The words of a tool that has several options, and its text of help."""

    def __init__(self, name, text):
        super().__init__(f"tools/{name}", description=text, formatter_class=argparse.RawDescriptionHelpFormatter)

    def add_program(self):
        text = "the installed one" if IS_INSTALLED else "the proved one, which ./hcache builds"
        self.add_argument("--program", metavar="PATH", help=f"the program hcache, in place of {text}")
        self.set_defaults(unproved=False)
        if not IS_INSTALLED:
            text = "run the program that isn't proved, which is built in some minutes"
            self.add_argument("--unproved", action="store_true", help=text)

    def error(self, message):
        """Ends with the status that tells of words that nothing can be made of."""
        self.print_usage(sys.stderr)
        self.exit(64, f"{self.prog}: {message}\n")


def count(text):
    """A number of at least one, as the word of an option."""
    if not text.isdecimal() or int(text) < 1:
        raise argparse.ArgumentTypeError(f"{text!r} is no number from 1")
    return int(text)


def as_launched(words):
    """The words by which ./hcache starts a program that serves until it is stopped: what stops it is held back, and
    seen by the program all the same; and the memory of large bodies goes back at once."""
    return ["env", "--block-signal=TERM,INT", "MALLOC_MMAP_THRESHOLD_=262144", *words]


def open_many_files():
    """Lets this process, and what it starts, open as many files as it may. Answers how many."""
    _, most = resource.getrlimit(resource.RLIMIT_NOFILE)
    resource.setrlimit(resource.RLIMIT_NOFILE, (most, most))
    return most


def hcache_by(options):
    """The words by which hcache is run, by the options of `add_program`."""
    if options.program:
        os.environ["HCACHE"] = options.program
    return hcache(options.unproved)


def hcache(is_unproved=False):
    """The words by which hcache is run, once it is built: the program that HCACHE names, or else the proved one, or the
    one that isn't proved; or the one that is installed."""
    if IS_INSTALLED:
        os.environ.setdefault("HCACHE", "hcache")
    if "HCACHE" in os.environ:
        need(os.environ["HCACHE"])
        return [os.path.abspath(shutil.which(os.environ["HCACHE"]))]
    direct = HERE / "tools/direct"
    if is_unproved:
        for name in COMMANDS:
            unproved(name)
        return [direct, "--unproved"]
    if subprocess.run([HERE / "hcache", "--build"], check=False).returncode:
        print("hcache isn't built", file=sys.stderr)
        sys.exit(70)
    return [direct]


def program(command, is_unproved=False):
    """The words by which the program is run that has that command, once it is built, and nothing before it; or the one
    that HCACHE names."""
    if IS_INSTALLED or "HCACHE" in os.environ:
        return hcache()
    name = without_proof.crate_of(command)
    if is_unproved:
        return unproved(name)
    hcache()
    return [HERE / f"crates/{name}/out/{name}"]


def unproved(name):
    """The words by which the program of a crate is run without a proof, once it is built."""
    try:
        return without_proof.program_of(name)
    except without_proof.CantKeep:
        print("this toolchain's program can't be kept", file=sys.stderr)
    except without_proof.CantBuild as fault:
        print(fault, f"{name} can't be built", sep="\n", file=sys.stderr)
    sys.exit(70)


class Shim:
    """The shared object that refuses memory, and the file in which it counts what is asked for. It needs cc."""

    def __init__(self, room, limit):
        self.object, self.count, self.limit = room / "refused.so", room / "count", limit
        source = HERE / "tools/refused_allocation.c"
        subprocess.run(["cc", "-O2", "-shared", "-fPIC", "-o", self.object, source], check=True)

    def environment(self, which):
        """The environment of a process whose request of that number is refused, none for 0."""
        self.count.write_bytes(bytes(16))
        said = {"LD_PRELOAD": self.object, "REFUSED_REQUEST": str(which), "REFUSED_COUNT": self.count}
        return {**os.environ, **said}

    def counts(self):
        """How many requests there were, and for how many octets."""
        octets = self.count.read_bytes()
        return tuple(int.from_bytes(it, sys.byteorder) for it in (octets[:8], octets[8:]))

    def run(self, which, *words, given=b""):
        environment = self.environment(which)
        ran = subprocess.run(words, input=given, capture_output=True, timeout=self.limit, env=environment, check=False)
        return Ran(ran.returncode, ran.stdout, ran.stderr, *self.counts())
