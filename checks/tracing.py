"""The system calls of a run of the program, met by ptrace. Linux on x86-64 or aarch64."""
import ctypes
import fcntl
import os
import platform
import signal
import sys

from common import lines, program

# The numbers of the system calls that reach the disk, by the machine's kind.
CALLS = {
    "x86_64": {
        "write": 1, "pwrite64": 18, "writev": 20, "pwritev": 296, "pwritev2": 328, "fsync": 74, "fdatasync": 75, "sync": 162,
        "syncfs": 306, "sync_file_range": 277, "truncate": 76, "ftruncate": 77, "fallocate": 285, "rename": 82, "renameat": 264,
        "renameat2": 316, "unlink": 87, "unlinkat": 263, "sendfile": 40, "copy_file_range": 326,
    },
    "aarch64": {
        "write": 64, "pwrite64": 68, "writev": 66, "pwritev": 70, "pwritev2": 287, "fsync": 82, "fdatasync": 83, "sync": 81,
        "syncfs": 267, "sync_file_range": 84, "truncate": 45, "ftruncate": 46, "fallocate": 47, "renameat": 38, "renameat2": 276,
        "unlinkat": 35, "sendfile": 71, "copy_file_range": 285,
    },
}
# Where the number of the call stands among the registers of PTRACE_GETREGSET, in words of 8 bytes, and where its arguments.
NUMBER_AT = {"x86_64": 15, "aarch64": 8}
ARGUMENTS_AT = {"x86_64": (14, 13, 12, 7), "aarch64": (0, 1, 2, 3)}
TRACEME, SYSCALL, SETOPTIONS, GETREGSET = 0, 24, 0x4200, 0x4204
GENERAL_REGISTERS = 1
SYSGOOD, EXITKILL = 1, 0x100000
SET_PIPE_SIZE = 1031
MACHINE = platform.machine()


class Span(ctypes.Structure):
    _fields_ = [("base", ctypes.c_void_p), ("length", ctypes.c_size_t)]


LIBRARY = ctypes.CDLL(None, use_errno=True)
LIBRARY.ptrace.restype = ctypes.c_long
LIBRARY.ptrace.argtypes = [ctypes.c_long, ctypes.c_long, ctypes.c_void_p, ctypes.c_void_p]


def ptrace(request, process, address=0, data=0):
    if LIBRARY.ptrace(request, process, address, data) < 0:
        number = ctypes.get_errno()
        raise OSError(number, f"ptrace {request}: {os.strerror(number)}")


def call_of(process):
    """The number of the system call at which a process stands, and its first four arguments."""
    words = (ctypes.c_ulong * 64)()
    span = Span(ctypes.addressof(words), ctypes.sizeof(words))
    ptrace(GETREGSET, process, GENERAL_REGISTERS, ctypes.addressof(span))
    return words[NUMBER_AT[MACHINE]], [words[at] for at in ARGUMENTS_AT[MACHINE]]


def start(words, answers, sent):
    """Starts the program with these words, stopped at its first step. Each read of its input gives one delivery."""
    given, giving = os.pipe2(os.O_DIRECT)
    fcntl.fcntl(giving, SET_PIPE_SIZE, 1 << 20)
    for delivery in sent:
        os.write(giving, lines(delivery))
    os.close(giving)
    told = os.open(answers, os.O_WRONLY | os.O_CREAT | os.O_TRUNC)
    words = [*program(), *words]
    process = os.fork()
    if not process:
        try:
            os.dup2(given, 0)
            os.dup2(told, 1)
            os.closerange(3, 64)
            ptrace(TRACEME, 0)
            os.execvp(words[0], words)
        finally:
            os._exit(127)
    os.close(given)
    os.close(told)
    os.waitpid(process, 0)
    ptrace(SETOPTIONS, process, 0, SYSGOOD | EXITKILL)
    return process


def traced(words, answers, sent, stop=None, meet=None):
    """Runs the program. Without `stop` to its end: the names of the calls that it makes. `stop` is the place of one of
    these calls, and whether it is killed before it or after it: then answers None. `meet` gets the process, the name and
    the arguments of each call as it begins."""
    names = {number: name for name, number in CALLS[MACHINE].items()}
    process, seen, is_inside, is_met, passing = start(words, answers, sent), [], False, False, 0
    while True:
        ptrace(SYSCALL, process, 0, passing)
        _, status = os.waitpid(process, 0)
        passing = 0
        if os.WIFEXITED(status):
            return seen if os.WEXITSTATUS(status) == 0 else None
        if os.WIFSIGNALED(status):
            return None
        if os.WSTOPSIG(status) != signal.SIGTRAP | 0x80:
            passing = 0 if os.WSTOPSIG(status) == signal.SIGTRAP else os.WSTOPSIG(status)
            continue
        is_inside = not is_inside
        if is_inside:
            number, arguments = call_of(process)
            name = names.get(number)
            is_met = name is not None
            if is_met:
                seen.append(name)
                if meet:
                    meet(process, name, arguments)
        is_here = stop is not None and is_met and len(seen) - 1 == stop[0] and is_inside == stop[1]
        if is_here:
            os.kill(process, signal.SIGKILL)
            os.waitpid(process, 0)
            return None


def run_traced(checks, *parts):
    """Runs the parts, where the numbers of the machine's system calls are known."""
    if MACHINE in CALLS and sys.platform == "linux":
        return checks.run(*parts)
    checks.skip(checks.name, f"no numbers of system calls for {sys.platform} on {MACHINE}")
    print("0 passed, 0 failed")
    return 0
