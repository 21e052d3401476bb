"""The library's calls from Python, by ctypes.

A call is a line of CALLS. Every slice, and every number that is written, is lent from the midst of a larger array: what
stands before and after it, and all of a slice that the call only reads, has to stay as it was.
"""

import ctypes
import os
import platform
import shlex
import shutil
import subprocess
import sys
from collections import namedtuple

ROOT = os.path.dirname(os.path.dirname(os.path.abspath(__file__)))
sys.path.insert(0, os.path.join(ROOT, "conformance"))

import runner  # noqa: E402

BUILD = os.path.join(ROOT, "build")
FOLDER = os.path.join(ROOT, "target", "calls")
UNDER_WAY = os.path.join(FOLDER, "under-way.txt")     # the input of the call that runs, as text
TYPES = {"u8": ctypes.c_uint8, "u32": ctypes.c_uint32, "u64": ctypes.c_uint64}
GUARD = 9                       # elements before and after a slice; odd, so that bytes start at an odd address
PAINT = 0xA5A5_0000_0000_0000   # what stands in an element beforehand, and its place; no moment, no level
PAINT_BYTE = 0x80               # the same of a byte, and the place's lower 7 bits: the bytes of a file are mostly small

Parameter = namedtuple("Parameter", "name type slice written")


def parameters(text):
    """A call's parameters: name:type for a number, name:type[] for a slice, a * behind either that is written."""
    result = []
    for word in text.split():
        name, _, kind = word.partition(":")
        result.append(Parameter(name, kind.rstrip("[]*"), "[]" in kind, kind.endswith("*")))
    return result


# The calls of include/kuldrepso.h without the kuldrepso_ of their names, their parameters in order. A slice is a
# pointer and a count there, a number that is written a pointer alone. Each answers a u64.
CALLS = {
    "calculate": parameters("file:u8[] cells:u64[]* row_means:u64*"),
    "series": parameters("file:u8[] times:u32[] levels:u64[]* cells:u64[]* row_means:u64*"),
    "remainders": parameters("file:u8[] state:u64 n:u64 r:u64 mean:u64* share:u64* mix:u64*"),
    "to_version_2": parameters("file:u8[] out:u8[]*"),
    "to_version_1": parameters("file:u8[] out:u8[]*"),
    "practice": parameters("states:u64 highest:u64 seed:u32 out:u8[]*"),
}


def painted(count, kind="u64", first=0, other=False):
    """What `count` elements hold beforehand, each a number of its own; or others, different at every place."""
    most = 2 ** (8 * ctypes.sizeof(TYPES[kind])) - 1
    numbers = (PAINT_BYTE + k % 128 if kind == "u8" else (PAINT + k) & most for k in range(first, first + count))
    return [number ^ most if other else number for number in numbers]


# --- The shared object --------------------------------------------------------------------------

def compiler():
    """The command of a C compiler, CC before others, or none."""
    for command in [shlex.split(os.environ["CC"])] if os.environ.get("CC") else [["cc"], ["gcc"], ["clang"]]:
        if command and shutil.which(command[0]):
            return command
    return []


def why_not():
    """Why the library cannot be called on this machine, or an empty word."""
    if not compiler():
        return "no C compiler was found"
    if platform.machine() != "x86_64":
        return "the static library links on x86-64 alone"
    return ""


def built():
    """The path of the static library made from the sources as they are; none where build has said why it cannot be."""
    result = subprocess.run([BUILD, "kuldrepso"], stdout=subprocess.PIPE, check=False)
    path = os.fsdecode(result.stdout).rstrip("\n")
    if not result.returncode and not path:
        raise OSError(f"{BUILD} kuldrepso printed no path")
    return "" if result.returncode else path


def shared_object(static):
    """A shared object with all of a static library, under target/calls; where it is."""
    os.makedirs(FOLDER, exist_ok=True)
    path = os.path.join(FOLDER, "libkuldrepso.so")
    made = f"{path}.{os.getpid()}"
    command = [*compiler(), "-shared", "-o", made, "-Wl,--whole-archive", static, "-Wl,--no-whole-archive"]
    result = subprocess.run(command, stderr=subprocess.PIPE, text=True, check=False)
    if result.returncode:
        raise OSError(f"{static} is not linked: {(result.stderr.strip().splitlines() or ['no reason given'])[0]}")
    os.replace(made, path)
    return path


# --- Calling --------------------------------------------------------------------------------------

class Slice:
    """A slice lent from the midst of a larger array; `before` is what the whole array holds beforehand. A number that
    is written is a slice of one."""

    def __init__(self, parameter, given):
        contents = painted(given, parameter.type) if parameter.written else list(given)
        kind = TYPES[parameter.type]
        self.parameter, self.count = parameter, len(contents)
        self.before = [*painted(GUARD, parameter.type, -GUARD), *contents, *painted(GUARD, parameter.type, self.count)]
        self.array = (kind * len(self.before))(*self.before)
        self.start = ctypes.c_void_p(ctypes.addressof(self.array) + GUARD * ctypes.sizeof(kind))

    def contents(self):
        return self.array[GUARD:GUARD + self.count]

    def faults(self):
        """A line for each element changed that the call may not write, elements counted from the start of the slice."""
        for place, (old, new) in enumerate(zip(self.before, self.array), -GUARD):
            within = 0 <= place < self.count
            if old != new and not (within and self.parameter.written):
                where = "which is only read" if within else f"outside of its {self.count}"
                yield f"{self.parameter.name}[{place}], {where}, was {old} and is {new}"


class Library:
    """The calls of a library, given as a static one or as a shared object (.so)."""

    def __init__(self, path):
        if not os.path.isfile(path):
            raise OSError(f"there is no library {path}")
        self.calls = ctypes.CDLL(os.path.abspath(path) if path.endswith(".so") else shared_object(path))

    def has(self, name):
        return hasattr(self.calls, "kuldrepso_" + name)

    def call(self, name, given):
        """The answer, what each written slice holds after the call, and a line for each thing changed that had to stay.
        `given` has a number, the elements of a slice that is read, or the count of what is written (of a number 1)."""
        function = getattr(self.calls, "kuldrepso_" + name)
        function.restype = ctypes.c_uint64
        slices, arguments = [], []
        for parameter in CALLS[name]:
            if parameter.slice or parameter.written:
                slices.append(Slice(parameter, given[parameter.name]))
                arguments.append(slices[-1].start)
                if parameter.slice:
                    arguments.append(ctypes.c_size_t(slices[-1].count))
            else:
                arguments.append(TYPES[parameter.type](given[parameter.name]))
        answer = function(*arguments)
        written = {part.parameter.name: part.contents() for part in slices if part.parameter.written}
        return answer, written, [line for part in slices for line in part.faults()]


def opened(path=None):
    """The library at a path, or the one that build makes; none where build has said why it cannot be."""
    os.makedirs(FOLDER, exist_ok=True)
    path = path or built()
    return Library(path) if path else None


def in_child(main):
    """The status of a script's main, run in a process of its own: 1 where a call ends it by a signal."""
    sys.stdout.flush()
    child = os.fork()
    if not child:
        runner.leave(main)
    status = os.waitstatus_to_exitcode(os.waitpid(child, 0)[1])
    if status < 0:
        print(f"ended by signal {-status}; the input of the call under way is saved as {UNDER_WAY}")
    return 1 if status < 0 else status


def difference(call, expected, got):
    """The first difference between two results of a call, (answer, written slices), in words, or an empty word."""
    if expected[0] != got[0]:
        return f"answer: expected {expected[0]}, got {got[0]}"
    for name, kind in ((each.name, each.type) for each in CALLS[call] if each.written):
        for place, (old, new) in enumerate(zip(expected[1][name], got[1][name])):
            if old != new:
                was = " (as it was)" if [old] == painted(1, kind, place) else ""
                return f"{name}[{place}]: expected {old}{was}, got {new}"
    return ""
