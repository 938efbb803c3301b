"""Memory that is lent to a call of the C interface: with what must stand there when the call is
over, and compared in full, whether the call may write it or only read it.

Each pointer of a call has a region of its own between two pages that must not be touched, and what
is only read is lent so that it cannot be written: a call that does either ends the process.
"""

import ctypes
import hashlib
import mmap
import os
import signal
from array import array
from functools import cache

GUARD = hashlib.shake_128(b"guard").digest(256)
# So many bytes of a slice are told.
TOLD = 4096
# Room for every slice that is not stretched.
REGION_BYTES = 1 << 20
UNTOUCHABLE = 0


def told(data):
    return (data[:TOLD].hex() or "nothing") + (", .." if len(data) > TOLD else "")


class Memory:
    """What a pointer points to, in units of 1, 4 or 8 bytes, before and after the call.

    Behind a slice that is too short stands what was cut off, so that reading on would pay. Of a
    slice that is longer than it must be, the last units are to spare. A stretched slice is longer
    than its contents here: any bytes follow them.
    """

    def __init__(self, before, unit=1, behind=b"", spare=0):
        self.before = self.after = before
        self.unit, self.behind, self.spare = unit, behind, spare
        self.length, self.stretched = len(before) // unit, False

    def stretch(self, length):
        """Answers with the memory itself, as `leave` does."""
        self.length, self.stretched = length, True
        return self

    def value(self):
        """What a call is given: words or bytes."""
        return list(array("I", self.before)) if self.unit == 4 else self.before

    def leave(self, after):
        """Sets what must stand here at exit."""
        self.after = after
        return self

    def __str__(self):
        kind = {1: "bytes", 4: "words", 8: "size_t"}[self.unit]
        behind = f", behind the slice {told(self.behind)}" if self.behind else ""
        more = ", then any others" if self.stretched else ""
        return f"{self.length} {kind}: {told(self.before)}{more}{behind}"


@cache
def far_pages():
    """So much memory that a length in words passes 32 bits. Only pages that are touched take space:
    MAP_NORESERVE, which this version of Python has no name for."""
    flags = mmap.MAP_PRIVATE | mmap.MAP_ANONYMOUS | 0x4000
    return mmap.mmap(-1, (4 << 32) + (1 << 20), flags)


def address_of(pages):
    return ctypes.addressof(ctypes.c_char.from_buffer(pages))


def protect(address, size, protection):
    mprotect = ctypes.CDLL(None, use_errno=True).mprotect
    mprotect.argtypes = [ctypes.c_void_p, ctypes.c_size_t, ctypes.c_int]
    if mprotect(address, size, protection):
        raise OSError(ctypes.get_errno(), "mprotect")


class Region:
    """Memory for one pointer. It is mapped twice: the tests write and read it through one mapping,
    and the call is given the other, which has the two pages around it and its protection."""

    def __init__(self, read_only):
        size = REGION_BYTES + 2 * mmap.PAGESIZE
        file = os.memfd_create("region")
        os.ftruncate(file, size)
        self.mappings = [mmap.mmap(file, size) for _ in range(2)]
        os.close(file)
        ours, lent = map(address_of, self.mappings)
        self.start = lent + mmap.PAGESIZE
        self.end = self.start + REGION_BYTES
        self.to_ours = ours - lent
        protect(lent, size, UNTOUCHABLE)
        allowed = mmap.PROT_READ if read_only else mmap.PROT_READ | mmap.PROT_WRITE
        protect(self.start, REGION_BYTES, allowed)


@cache
def region(pointer, read_only):
    """That of the call's first pointer, of its second, .."""
    return Region(read_only)


class Placed:
    """Memory laid out for one call: shifted so many bytes from the page before it or, with no shift
    given, up to the page behind it. Guards stand on the other sides. Of a stretched slice only the
    two ends are looked at, and no such page is near."""

    def __init__(self, memory, within, shift):
        self.memory = memory
        size = memory.length * memory.unit
        self.to_ours = within.to_ours
        if not memory.stretched and size + len(memory.behind) + 2 * len(GUARD) > REGION_BYTES:
            raise ValueError(f"no region has room for {size} bytes")
        if memory.stretched:
            self.address, self.to_ours = address_of(far_pages()) + len(GUARD), 0
            near_end = self.piece(GUARD, bytes(mmap.PAGESIZE))
            self.pieces = [near_end, (size, GUARD, GUARD)]
        elif shift is None:
            self.address = within.end - size
            self.pieces = [self.piece(GUARD, b"")]
        else:
            # bytes stand anywhere, words and sizes aligned
            shift = shift // memory.unit * memory.unit
            self.address = within.start + shift
            self.pieces = [self.piece(GUARD[:shift], memory.behind + GUARD)]
        for offset, before, _ in self.pieces:
            ctypes.memmove(self.address + self.to_ours + offset, before, len(before))

    def piece(self, front, behind):
        """An offset from the slice's start, what stands from there on before and after the call."""
        before, after = self.memory.before, self.memory.after
        return -len(front), front + before + behind, front + after + behind

    def differences(self):
        """Where memory is not as it must be, in lines."""
        for offset, _, expected in self.pieces:
            found = ctypes.string_at(self.address + self.to_ours + offset, len(expected))
            if found != expected:
                at = next(k for k, byte in enumerate(expected) if found[k] != byte)
                size = self.memory.length * self.memory.unit
                yield f"first at byte {offset + at}, counted from 0, of {size}"
                yield f"expected from there {told(expected[at:])}"
                yield f"got from there      {told(found[at:])}"


def ends_the_process(touch, address):
    """Whether a process that touches this address is ended for it."""
    child = os.fork()
    if child == 0:
        touch(address)
        os._exit(0)
    status = os.waitpid(child, 0)[1]
    return os.WIFSIGNALED(status) and os.WTERMSIG(status) == signal.SIGSEGV


def unguarded():
    """What a call could do unseen, though it must not: nothing, else the tests show less."""
    for read_only in (True, False):
        within = region(0, read_only)
        kind = "only read" if read_only else "written"
        for address, place in ((within.start - 1, "before"), (within.end, "behind")):
            if not ends_the_process(lambda at: ctypes.string_at(at, 1), address):
                yield f"read {place} memory that is {kind}"
        writes = lambda at: ctypes.memset(at, 0, 1)
        if read_only and not ends_the_process(writes, within.start):
            yield f"write memory that is {kind}"
