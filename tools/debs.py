"""Files as a package of Debian has them: an archive of `ar` that holds two of `tar`. The same files give the same
octets: nothing of this machine gets into them, and no time but the one that is said."""

import collections
import io
import posixpath
import struct
import tarfile
import zlib

OPENING = b"!<arch>\n"
MEMBER = "{:<16}{:<12}{:<6}{:<6}{:<8}{:<10}`\n"
FOLDER_MODE = 0o755

File = collections.namedtuple("File", "octets mode", defaults=(0o644,))


def gzipped(octets):
    """The octets, compressed, without a name, a time or a system."""
    deflate = zlib.compressobj(9, zlib.DEFLATED, -zlib.MAX_WBITS)
    body = deflate.compress(octets) + deflate.flush()
    return b"\x1f\x8b\x08\0\0\0\0\0\x02\xff" + body + struct.pack("<II", zlib.crc32(octets), len(octets) & 0xFFFFFFFF)


def folders_of(files):
    """The folders in which files lie, by their names from the root on."""
    found = {""}
    for name in files:
        while name:
            name = posixpath.dirname(name)
            found.add(name)
    return found


def entry(name, kind, mode, moment, size=0):
    """What a tar says of a file or a folder."""
    it = tarfile.TarInfo(f"./{name}" + "/" * (kind == tarfile.DIRTYPE and bool(name)))
    it.type, it.mode, it.mtime, it.size = kind, mode, moment, size
    it.uname = it.gname = "root"
    return it


def tarred(files, moment):
    """A tar of the files, with their folders, in the order of their names."""
    room = io.BytesIO()
    with tarfile.open(fileobj=room, mode="w", format=tarfile.GNU_FORMAT) as to:
        for name in sorted(folders_of(files) | set(files)):
            if name in files:
                octets, mode = files[name]
                to.addfile(entry(name, tarfile.REGTYPE, mode, moment, len(octets)), io.BytesIO(octets))
            else:
                to.addfile(entry(name, tarfile.DIRTYPE, FOLDER_MODE, moment))
    return room.getvalue()


def package(control, files, moment):
    """The octets of a package that has those files, and those that dpkg reads."""
    members = {"debian-binary": b"2.0\n", "control.tar.gz": gzipped(tarred(control, moment)),
               "data.tar.gz": gzipped(tarred(files, moment))}
    octets = OPENING
    for name, held in members.items():
        octets += MEMBER.format(name, moment, 0, 0, 100644, len(held)).encode() + held + b"\n" * (len(held) % 2)
    return octets


def members_of(octets):
    """The members of an archive of `ar`, by their names."""
    if not octets.startswith(OPENING):
        raise ValueError("it is no package")
    place, found = len(OPENING), {}
    while place < len(octets):
        name, size = octets[place : place + 16].decode().strip().rstrip("/"), int(octets[place + 48 : place + 58])
        found[name] = octets[place + 60 : place + 60 + size]
        place += 60 + size + size % 2
    return found


def unpacked(octets):
    """The files that a package has, by their names: those that dpkg reads under `DEBIAN`. A folder has no octets."""
    found = {}
    for member, held in members_of(octets).items():
        if ".tar" not in member:
            found[f"DEBIAN/{member}"] = File(held)
            continue
        below = "DEBIAN/" if member.startswith("control.") else ""
        with tarfile.open(fileobj=io.BytesIO(held)) as archive:
            for it in archive:
                content = archive.extractfile(it).read() if it.isreg() else it.linkname.encode()
                found[below + it.name.removeprefix("./")] = File(content, (it.mode, it.type, it.uid, it.gid))
    return found
