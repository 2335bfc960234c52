"""Programs that are built without proofs: each is built once, and kept in a cache folder of the user.

They are kept in `$XDG_CACHE_HOME/predator` (`~/.cache/predator` where that is not set), or in `predator-UID` in the folder for temporary files where that
cannot be used, each by its kind and the checksum of what it is built from.
"""
import contextlib
import errno
import fcntl
import os
import stat
import tempfile
from pathlib import Path

KEPT = 3  # programs of a kind: of these sources, and of others that were used last


class NotBuilt(Exception):
    """There is no program, for the reason that is given."""


def folders():
    """Where programs are kept: in the user's cache, and where that cannot be used in a folder of the user's own for what is temporary."""
    cache = os.environ.get("XDG_CACHE_HOME") or os.path.join(os.path.expanduser("~"), ".cache")
    yield Path(cache, "predator")
    own = Path(tempfile.gettempdir(), f"predator-{os.getuid()}")
    own.mkdir(mode=0o700, exist_ok=True)
    about = own.lstat()
    if about.st_uid != os.getuid() or not stat.S_ISDIR(about.st_mode) or about.st_mode & 0o022:
        raise PermissionError(errno.EPERM, os.strerror(errno.EPERM), own)
    yield own


def program(kind, checksum, built):
    """The program of a kind and a checksum. Where none is kept, `built` puts it into the file that it is given."""
    said = "no folder to keep it in"
    try:
        for room in folders():
            try:
                return kept(room, kind, room / f"{kind}-{checksum[:40]}.program", built)
            except OSError as error:
                said = f"{room}: {error.strerror}"
    except OSError as error:
        said = f"{error.filename}: {error.strerror}"
    raise NotBuilt(said)


def kept(room, kind, file, built):
    """The program that is kept in a folder, which is built where there is none."""
    if not file.is_file():
        room.mkdir(parents=True, exist_ok=True)
        with open(room / "lock", "wb") as lock:
            fcntl.flock(lock, fcntl.LOCK_EX)
            if not file.is_file():
                build_into(file, built)
                drop_old(room, kind)
    with contextlib.suppress(OSError):
        os.utime(file)
    return file


def build_into(file, built):
    """Builds the program, and puts it there whole."""
    number, new = tempfile.mkstemp(dir=file.parent)
    os.close(number)
    try:
        built(new)
        os.replace(new, file)
    finally:
        Path(new).unlink(missing_ok=True)


def drop_old(room, kind):
    """Removes programs of a kind from other sources, but for the last that were used, and such as were kept without a kind."""
    alike = [file for file in room.glob("*.program") if file.name.rpartition("-")[0] in (kind, "")]
    for file in sorted(alike, key=lambda file: file.stat().st_atime, reverse=True)[KEPT:]:
        file.unlink(missing_ok=True)
