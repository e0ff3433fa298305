"""Work on something long, shared out among the processors: a process for each piece but the last."""

import mmap
import os
from collections.abc import Callable

from desk.stops import Failed


def hands(count: int, worth: int) -> int:
    """Among how many to share; below `worth` another process costs more than it saves."""
    return 1 if count < worth else min(len(os.sched_getaffinity(0)), 8)


def even(count: int, worth: int) -> list[tuple[int, int]]:
    """0 to `count` in pieces of one length."""
    parts = hands(count, worth)
    ends = [count * part // parts for part in range(parts + 1)]
    return list(zip(ends, ends[1:]))


def at_lines(text: bytes, worth: int) -> list[tuple[int, int]]:
    """A text in pieces of about one length, each of whole lines."""
    ends = [end if end in (0, len(text)) else text.find(b"\n", end) + 1 or len(text) for _, end in even(len(text), worth)]
    return list(zip([0, *ends], ends))


def aside(work: Callable[[], bool]) -> Callable[[], bool]:
    """Starts work that may wait until a processor is idle; what is given says, later, how it came out."""
    pid = os.fork()
    if pid == 0:
        status = 1
        try:
            os.nice(19)
            status = 0 if work() else 1
        finally:
            os._exit(status)
    return lambda: os.waitpid(pid, 0)[1] == 0


def line_start(text: bytes, line: int) -> int:
    """Where a line of a text begins, lines counted from 0."""
    low, before, high = 0, 0, len(text)
    while before < line:
        middle = (low + high) // 2
        found = text.count(b"\n", low, middle)
        if before + found < line and middle > low:
            low, before = middle, before + found
        elif high - low > 4096:
            high = middle
        else:
            low = text.index(b"\n", low) + 1
            before += 1
    return low


def spread(work: Callable[[int, int], bytes], pieces: list[tuple[int, int]]) -> list[memoryview]:
    """What `work` gives for each piece, in their order."""
    started = [_start(work, start, end) for start, end in pieces[:-1]]
    last = memoryview(work(*pieces[-1]))
    return [*(_result(pid, memory) for pid, memory in started), last]


def _start(work: Callable[[int, int], bytes], start: int, end: int) -> tuple[int, int]:
    """A process that leaves its result in a piece of memory."""
    memory = os.memfd_create("loft")
    pid = os.fork()
    if pid:
        return pid, memory
    status = 1
    try:
        left = memoryview(work(start, end))
        while left:
            left = left[os.write(memory, left) :]
        status = 0
    finally:
        os._exit(status)


def _result(pid: int, memory: int) -> memoryview:
    _, status = os.waitpid(pid, 0)
    with open(memory, "rb") as file:
        if status:
            raise Failed("a part of the work was ended; nothing is done")
        size = os.fstat(memory).st_size
        return memoryview(mmap.mmap(file.fileno(), size, prot=mmap.PROT_READ)) if size else memoryview(b"")
