"""One thread of a process, held while the others run (ptrace(2))."""
from __future__ import annotations

import ctypes
import os

SEIZE, INTERRUPT, DETACH = 0x4206, 0x4207, 17
WAIT_ALL = 0x40000000  # __WALL: also for threads that aren't the first one of their process.


class Held:
    """Holds the thread from its making to `__exit__`, both called by the same thread of ours. Raises PermissionError if the system
    forbids that. The process must be a child of ours, whose status nobody asks for meanwhile."""

    def __init__(self, thread: int) -> None:
        self.thread = thread
        self.ptrace = ctypes.CDLL(None, use_errno=True).ptrace
        self.ptrace.argtypes = [ctypes.c_long, ctypes.c_long, ctypes.c_void_p, ctypes.c_void_p]
        self.ptrace.restype = ctypes.c_long
        self.ask(SEIZE)
        self.ask(INTERRUPT)
        os.waitpid(thread, WAIT_ALL)

    def ask(self, request: int) -> None:
        if self.ptrace(request, self.thread, None, None) != 0:
            number = ctypes.get_errno()
            raise OSError(number, os.strerror(number))

    def __enter__(self) -> Held:
        return self

    def __exit__(self, *why: object) -> None:
        self.ask(DETACH)
