"""Holding a part of a process: all its threads but the first stand still, as if the machine gave them no time.

A thread is held as a debugger does it (ptrace(2) of Linux): it stops where it is, and goes on as if nothing had been.
The process has to be one that this one has started.
"""

import contextlib
import ctypes
import os

SEIZE, INTERRUPT, DETACH = 0x4206, 0x4207, 17
# waitpid(2): threads are waited for too.
ALL = 0x40000000

LIBC = ctypes.CDLL(None, use_errno=True)
LIBC.ptrace.argtypes = [ctypes.c_long, ctypes.c_long, ctypes.c_void_p, ctypes.c_void_p]
LIBC.ptrace.restype = ctypes.c_long


def trace(request, thread):
    if LIBC.ptrace(request, thread, None, None) == -1:
        raise OSError(ctypes.get_errno(), "a thread can't be held: " + os.strerror(ctypes.get_errno()))


@contextlib.contextmanager
def held(process):
    """Stops all threads of a process but the first. It has to be left in the thread that has begun it."""
    others = [int(it) for it in os.listdir("/proc/%d/task" % process) if int(it) != process]
    stopped = []
    try:
        for thread in others:
            trace(SEIZE, thread)
            stopped.append(thread)
            trace(INTERRUPT, thread)
            os.waitpid(thread, ALL)
        yield len(stopped)
    finally:
        for thread in stopped:
            trace(DETACH, thread)
