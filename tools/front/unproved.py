"""The program built from sources that are not proved: built once by the kit's `rt try` (tried.py), and kept by the checksum of its sources and of the kit's name (kept.py)."""
import hashlib
import resource
import subprocess
import sys

from . import kept, sources, tried
from .kept import NotBuilt

CRATE = sources.HOME / "crates" / sources.NAME
TEXT = b"int main(void) { return 0; }\n"
# Trees of 1,024 levels take up to 14 megabytes where the program is built with checks, and the usual limit is eight (docs/tests.md).
STACK = 64 << 20


def built(to):
    """Builds the program into a file."""
    print("predator: no proved program stands; building the same sources unproved, once, which takes a minute or more", file=sys.stderr, flush=True)
    tried.built(CRATE, TEXT, to)
    done = subprocess.run([to], stdin=subprocess.DEVNULL, capture_output=True)
    if done.returncode != 4 or not done.stdout.startswith(b"usage: predator "):
        raise NotBuilt("what was copied from `rt try` is not the program: without words it does not print the usage line")


def program():
    """The program, which is built where none is kept."""
    return kept.program(sources.NAME, hashlib.sha256(f"{sources.checksum()} {sources.kit()}".encode()).hexdigest(), built)


def with_stack():
    """Gives this process, and the program that it becomes, the stack that deep trees need."""
    _, most = resource.getrlimit(resource.RLIMIT_STACK)
    wanted = STACK if most == resource.RLIM_INFINITY else min(STACK, most)
    resource.setrlimit(resource.RLIMIT_STACK, (wanted, most))
