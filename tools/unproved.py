"""usage: python3 tools/unproved.py build NAME
       python3 tools/unproved.py run WORD..

Builds the program of a crate without a proof, and keeps it in out/unproved/; or runs hcache so by these words,
where that can't be. `./hcache --unproved` and the tools call it.

`rt try` builds such a program, compiled with the address sanitizer and without optimising, and runs it in a folder of its
own. So it is called from a folder of links to the kit, in which its compiler and its linker are those of
tools/unproved_toolchain: the one optimises, and the other hands the program over. Bounds and sums stay checked: where a
check fails, the program ends without a message. In a kit that isn't laid out so nothing can be kept, and `run` has `rt
try` build and run the program as it does.

`build` ends with 0 where the program is kept, with 75 where it can't be, and with 70 where it can't be built. Beside the
program, in a file whose name ends in `.how`, stand its checksum, the kit's name, and the loader and the folder of
libraries by which it runs."""

import contextlib
import os
import pathlib
import re
import shutil
import signal
import subprocess
import sys
import tempfile
import time

HERE = pathlib.Path(__file__).resolve().parent.parent
KEPT = HERE / "out/unproved"
STANDS_IN = HERE / "tools/unproved_toolchain"
SMALL = 1_000_000  # octets of a file of the kit that is a script, at most
CANT_KEEP, CANT_BUILD = 75, 70
QUICKLY = ("try", "--steps", "1", "--seconds", "1")  # it is to be built, and hardly run
REFUSED = 1  # the status of `rt try` where the sources are wrong
SOON = 5  # seconds in which a program has started


class CantKeep(Exception):
    """This kit's program can't be kept, or not here."""


class CantBuild(Exception):
    """The program can't be built, for what `rt try` says."""


def say(text):
    print(f"hcache: {text}", file=sys.stderr, flush=True)


# -- The kit


def kit():
    """The folder of the kit whose `rt` is in PATH."""
    found = shutil.which("rt")
    if not found:
        say("needs the Rattle toolchain: put the folder of its command rt into PATH")
        sys.exit(CANT_BUILD)
    return pathlib.Path(os.path.realpath(found)).parent.parent


def kit_name():
    """What names the kit."""
    with contextlib.suppress(OSError):
        return (kit() / "KIT-ID").read_text(encoding="utf-8").strip()
    return subprocess.run(["rt", "version"], capture_output=True, text=True, check=False).stdout.strip()


def is_script(file):
    return file.stat().st_size < SMALL and not file.read_bytes().startswith(b"\x7fELF")


def link_all(folder, to, but=()):
    """Makes a folder of links to all that lies in another, but for those names."""
    to.mkdir()
    for it in folder.iterdir():
        if it.name not in but:
            (to / it.name).symlink_to(it)


def lay_out(of, to):
    """Makes a folder of links to the kit, with another compiler and another linker. A script looks for the kit where it
    lies itself, so those are copied. What `rt try` proves beside, for a hint, it doesn't get to."""
    bins = of / "toolchain/bin"
    scripts = [it for it in (of / "bin").iterdir() if is_script(it)]
    if not all((bins / it.name).is_file() for it in STANDS_IN.iterdir()) or of / "bin/rt" not in scripts:
        raise CantKeep
    link_all(of, to, ("bin", "toolchain"))
    link_all(of / "toolchain", to / "toolchain", ("bin",))
    link_all(bins, to / "toolchain/bin", [it.name for it in STANDS_IN.iterdir()])
    for it in STANDS_IN.iterdir():
        (to / "toolchain/bin" / it.name).symlink_to(it)
    (to / "toolchain/bin/real").symlink_to(bins)
    link_all(of / "bin", to / "bin", ["rattle", *(it.name for it in scripts)])
    for it in scripts:
        shutil.copy(it, to / "bin")
    (to / "bin/rattle").symlink_to(shutil.which("true"))


def runs_by(of):
    """The loader and the folder of libraries of programs of the kit."""
    libraries = of / "toolchain/lib"
    loaders = sorted(libraries.glob("ld-linux-*.so*"))
    if not loaders:
        raise CantKeep
    return loaders[0], libraries


# -- What is kept


def crate_of(command=""):
    """The crate whose program has that command, as tools/start.sh has it."""
    return "hc_proxy_prog" if command in ("proxy", "serve") else "hc_prog"


def words_of(name):
    """The words by which the kept program of a crate is run."""
    try:
        _, _, loader, libraries = (KEPT / f"{name}.how").read_text(encoding="utf-8").split("\n")[:4]
    except (OSError, ValueError) as error:
        raise CantKeep from error
    return [loader, "--inhibit-cache", "--library-path", libraries, str(KEPT / name)]


def checksum(file):
    with open(file, "rb") as it:
        return subprocess.run(["cksum"], stdin=it, capture_output=True, text=True, check=True).stdout.strip()


def crates_of(name):
    """The crate, and those of the repository that it stands on."""
    lines = (HERE / "crates.txt").read_text(encoding="utf-8").splitlines()
    parts = (line.partition(":") for line in lines if line and not line.startswith("#"))
    named = {head: below.split() for head, _, below in parts}
    found, left = set(), [name]
    for it in left:
        if it in named and it not in found:
            found.add(it)
            left += named[it]
    return found


def is_kept(name):
    """Whether the kept program is whole, of this kit, and no older than a source."""
    program = KEPT / name
    try:
        how = (KEPT / f"{name}.how").read_text(encoding="utf-8").split("\n")
        files = [HERE / "crates.txt"]
        for crate in crates_of(name):
            files += (HERE / "crates" / crate / "src").rglob("*")
        is_old = any(it.stat().st_mtime > program.stat().st_mtime for it in files)
        return not is_old and how[:2] == [checksum(program), kit_name()] and all(map(os.path.exists, how[2:4]))
    except (OSError, subprocess.SubprocessError):
        return False


def keep(name, made, began, of):
    """Keeps the program under its name: whenever that is looked for, it is whole."""
    lines = [checksum(made), kit_name(), *map(str, runs_by(of))]
    for file, put in ((f"{name}.how", lambda to: to.write_text("\n".join(lines) + "\n", encoding="utf-8")),
                      (name, lambda to: shutil.copyfile(made, to))):
        new = KEPT / f"{file}.{os.getpid()}"
        try:
            put(new)
            new.chmod(0o755)
            os.utime(new, (began, began))
            os.replace(new, KEPT / file)
        except OSError as error:
            new.unlink(missing_ok=True)
            raise CantKeep from error


# -- The build


def end(ran, room):
    """Ends what was started, and all that works in the room."""
    ran.terminate()
    with contextlib.suppress(subprocess.TimeoutExpired):
        ran.wait(10)
    with contextlib.suppress(ProcessLookupError):
        os.killpg(ran.pid, signal.SIGKILL)
    ran.wait()
    for it in pathlib.Path("/proc").glob("[0-9]*/cwd"):
        with contextlib.suppress(OSError):
            if os.readlink(it).startswith(f"{room}/"):
                os.kill(int(it.parent.name), signal.SIGKILL)


def linked(name, room):
    """The program of the crate, once it is linked; none where it can't be built so. What the sources break is told."""
    of = kit()
    lay_out(of, room / "kit")
    made = room / "kit/toolchain/bin/linked"
    with open(room / "log", "wb") as log:
        words = [room / "kit/bin/rt", *QUICKLY]
        ran = subprocess.Popen(words, cwd=HERE / "crates" / name, stdin=subprocess.DEVNULL, stdout=log, stderr=log,
                               env={**os.environ, "TMPDIR": str(room)}, start_new_session=True)
        try:
            while ran.poll() is None and not made.exists():
                time.sleep(0.1)
            is_refused = ran.poll() == REFUSED
        finally:
            end(ran, room)
    if is_refused:
        raise CantBuild((room / "log").read_text(encoding="utf-8", errors="replace"))
    return made if made.exists() else None


def runs(words):
    """Whether a program starts, be its words right or wrong."""
    try:
        ran = subprocess.run([*words, "--version"], stdin=subprocess.DEVNULL, capture_output=True, timeout=SOON,
                             check=False)
    except subprocess.TimeoutExpired:
        return True
    return ran.returncode in range(0, 126)


def fault_in(name, room):
    """What is wrong with the sources, by the way of every kit; nothing where they are right."""
    ran = subprocess.run(["rt", *QUICKLY], cwd=HERE / "crates" / name, stdin=subprocess.DEVNULL, capture_output=True,
                         text=True, errors="replace", env={**os.environ, "TMPDIR": str(room)}, check=False)
    lines = ran.stderr.splitlines() or [""]
    return None if lines[-1].startswith(("run=ended ", "run=no-answer ", "run=fault ")) else "\n".join(lines)


def build(name):
    """Builds the program of the crate, and keeps it."""
    try:
        if KEPT.exists() and not KEPT.is_dir():
            KEPT.unlink()
        KEPT.mkdir(parents=True, exist_ok=True)
        (KEPT / f"{name}.{os.getpid()}").touch()
        (KEPT / f"{name}.{os.getpid()}").unlink()
    except OSError as error:
        say(f"can't write to {KEPT}, so each call builds it anew")
        raise CantKeep from error
    began = time.time()
    with tempfile.TemporaryDirectory(prefix="unproved-") as room:
        room = pathlib.Path(os.path.realpath(room))
        made = linked(name, room)
        if made is None:
            fault = fault_in(name, room)
            if fault is not None:
                raise CantBuild(fault)
            raise CantKeep
        made.chmod(0o755)
        loader, libraries = runs_by(kit())
        if not runs([loader, "--inhibit-cache", "--library-path", libraries, made]):
            raise CantKeep
        keep(name, made, began, kit())


def program_of(name):
    """The words by which the program of a crate is run without a proof, once it is built."""
    if not is_kept(name):
        build(name)
    return words_of(name)


# -- The way of every kit


def run(words):
    """Has `rt try` build hcache and run it by these words, and returns its status. A word that names a file is handed on
    as the name of the copy alone, which is how the program finds that."""
    given, handed, names = [], [], set()
    for word in words:
        option = "--baseline=" if word.startswith("--baseline=") else ""
        file = word.removeprefix(option)
        if os.path.isfile(file):
            name = os.path.basename(file)
            name = f"{len(names) + 1}-{name}" if name in names else name
            names.add(name)
            given += ["--data", f"{name}={os.path.abspath(file)}"]
            word = option + name
        handed.append(word)
    with tempfile.TemporaryDirectory(prefix="unproved-") as room:
        with open(pathlib.Path(room) / "log", "w+", encoding="utf-8", errors="replace") as log:
            ran = subprocess.Popen(["rt", "try", *given, "--", *handed], cwd=HERE / "crates" / crate_of(*words[:1]), stderr=log,
                                   env={**os.environ, "TMPDIR": room}, start_new_session=True)
            try:
                status = ran.wait()
            finally:
                end(ran, os.path.realpath(room))
            log.seek(0)
            lines = log.read().splitlines()
    if not (lines and lines[-1].startswith("run=ended ")):
        raise CantBuild("\n".join(lines))
    # The last three lines are of `rt try`, and not of the program.
    print("".join(f"{line}\n" for line in lines[:-3]), end="", file=sys.stderr)
    return status


def main(words):
    if words in (["--help"], ["-h"]) or words[:1] not in (["build"], ["run"]) or len(words) < 2:
        print(__doc__, file=sys.stdout if words in (["--help"], ["-h"]) else sys.stderr)
        return 0 if words in (["--help"], ["-h"]) else 64
    for it in (signal.SIGTERM, signal.SIGHUP, signal.SIGINT):
        signal.signal(it, lambda number, _: sys.exit(128 + number))
    try:
        if words[0] == "run":
            return run(words[1:])
        build(*words[1:])
        return 0
    except CantKeep:
        return CANT_KEEP
    except CantBuild as fault:
        text = "\n".join(line for line in str(fault).splitlines() if not re.match("races: |run=", line))
        print(text, file=sys.stderr)
        say("the program can't be built" + (", or doesn't run to its end" if words[0] == "run" else ""))
        return CANT_BUILD


if __name__ == "__main__":
    sys.exit(main(sys.argv[1:]))
