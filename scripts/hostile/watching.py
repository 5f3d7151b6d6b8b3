"""The most memory that a program takes: the greatest size of what it held at a time, as the kernel counts it from the program's start.

What `wait4` says of a process counts from its fork, when it held what the script holds. So the process is traced (`ptrace`): it stops
once more as it ends, while the kernel's count of the program alone can still be read.
"""
import ctypes, os, signal

TRACE_ME, CONTINUE, SET_OPTIONS = 0, 7, 0x4200
STOP_AT_EXIT, AT_EXIT = 0x40, 6

ptrace = ctypes.CDLL(None, use_errno=True).ptrace
ptrace.argtypes = [ctypes.c_long, ctypes.c_long, ctypes.c_void_p, ctypes.c_void_p]
ptrace.restype = ctypes.c_long


def be_watched():
    """Lets the parent watch this process, which is to start a program. Where that is not permitted, nothing comes of it."""
    ptrace(TRACE_ME, 0, None, None)


def peak(pid):
    """The most bytes of memory that a process held since its program started."""
    with open(f'/proc/{pid}/status') as it:
        return next((int(line.split()[1]) * 1024 for line in it if line.startswith('VmHWM:')), 0)


def wait(pid):
    """Waits for a child: its status, what it used, and the most bytes of memory that it took (since its fork, if it is not watched)."""
    most = 0
    while True:
        _, status, used = os.wait4(pid, 0)
        if not os.WIFSTOPPED(status):
            return status, used, most or used.ru_maxrss * 1024
        stopped_by = os.WSTOPSIG(status)
        if status >> 16 == AT_EXIT:
            most = peak(pid)
        elif stopped_by == signal.SIGTRAP:
            ptrace(SET_OPTIONS, pid, None, STOP_AT_EXIT)
        ptrace(CONTINUE, pid, None, 0 if stopped_by == signal.SIGTRAP else stopped_by)
