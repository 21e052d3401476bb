"""One run of a calculator on a model, and the first difference between two sheets in words.

A model is written to standard input in pieces, each once the calculator has taken the one
before. So every read of the calculator gets one piece at most, and one that reads too few
times is seen to do so. What a calculator does with its input is its own affair: it may close
it early or never read it.
"""

import argparse
import contextlib
import os
import random
import signal
import subprocess
import sys
import tempfile
import threading

try:
    import fcntl
    import termios
except ImportError:          # not on every system
    fcntl = None

LARGE = 1000                 # bytes; a model of fewer has at most 15 states
TIME_LIMIT = 20              # seconds for one model
LARGE_TIME_LIMIT = 300       # seconds for a large one
NO_END = "no end within"
OUTPUT_LIMIT = 1_000_000     # bytes; the longest sheet has 521 lines and about 10,500 bytes
LINE_SHOWN = 60              # characters of a line in a message; no line of a sheet is longer
PAUSE = 0.005                # seconds between pieces where the system does not tell what was taken


# --- Feeding ----------------------------------------------------------------------------------

def pieces(file):
    """The file in pieces: cut after bytes 1, 7 and 15, about every 4,096 bytes, and before the last byte."""
    cuts = {1, 7, 15, len(file) - 1} | set(range(4095, len(file), 4097))
    places = [0] + sorted(cut for cut in cuts if 0 < cut < len(file)) + [len(file)]
    return [file[start:end] for start, end in zip(places, places[1:])]


def untaken(reader):
    """How many bytes wait in the pipe to be read, or None where the system does not tell."""
    if fcntl is None:
        return None
    try:
        return int.from_bytes(fcntl.ioctl(reader, termios.FIONREAD, bytes(4)), sys.byteorder)
    except OSError:
        return None


def await_reader(reader, ended):
    """Returns once the calculator has taken all that was written, or has ended."""
    if untaken(reader) is None:
        ended.wait(PAUSE)
        return
    wait = 0.00005
    while untaken(reader) and not ended.wait(wait):
        wait = min(1.2 * wait, 0.002)


def feed(reader, writer, file, ended):
    """Writes the file to the pipe and closes it. `ended` is set when the calculator has ended."""
    with contextlib.suppress(OSError), open(reader, "rb"), open(writer, "wb", buffering=0) as target:
        for piece in pieces(file):
            await_reader(reader, ended)
            if ended.is_set():
                break
            target.write(piece)


# --- Running -----------------------------------------------------------------------------------

def start(command, file):
    """The started process, and an event to be set when it has ended. An OSError where it cannot start."""
    reader, writer = os.pipe()
    try:
        process = subprocess.Popen(command, stdin=reader, stdout=subprocess.PIPE, start_new_session=True)
    except OSError:
        os.close(reader)
        os.close(writer)
        raise
    ended = threading.Event()
    threading.Thread(target=feed, args=(reader, writer, file, ended), daemon=True).start()
    return process, ended


def end(process):
    """Ends a process with those that it started itself."""
    with contextlib.suppress(OSError):
        if hasattr(os, "killpg"):
            os.killpg(process.pid, signal.SIGKILL)
        else:
            process.kill()


def run(command, file, time_limit=None):
    """What the command prints for a model, and a word on how the run went wrong (or an empty one)."""
    time_limit = time_limit or (TIME_LIMIT if len(file) < LARGE else LARGE_TIME_LIMIT)
    process, ended = start(command, file)
    late = threading.Event()

    def give_up():
        late.set()
        end(process)

    timer = threading.Timer(time_limit, give_up)
    timer.start()
    try:
        output = process.stdout.read(OUTPUT_LIMIT + 1)
        if len(output) > OUTPUT_LIMIT:
            return output, f"more than {OUTPUT_LIMIT} bytes of output"
        status = process.wait()
    finally:
        timer.cancel()
        if process.poll() is None:
            end(process)
        ended.set()
        process.stdout.close()
        process.wait()
    if late.is_set():
        return output, f"{NO_END} {time_limit} seconds"
    return output, f"ended by signal {-status}" if status < 0 else ""


# --- Scripts -----------------------------------------------------------------------------------

class Parser(argparse.ArgumentParser):
    """Says what is wrong with the arguments in one line, and ends with status 2."""

    def error(self, message):
        self.exit(2, f"{self.prog}: {message}\n")


def positive(text):
    """A whole number of at least 1, for an argument."""
    if not text.isdecimal() or int(text) < 1:
        raise argparse.ArgumentTypeError(f"{text} is not a whole number of at least 1")
    return int(text)


def add_count_and_seed(parser, count, of_what):
    """The arguments of a script that generates something: --count, and --seed or --fresh."""
    parser.add_argument("--count", type=positive, default=count, help=f"{of_what}; {count} unless given")
    group = parser.add_mutually_exclusive_group()
    group.add_argument("--seed", type=int, help="1 unless given")
    group.add_argument("--fresh", action="store_true", help="take a random seed")


def add_command(parser, unless_given):
    """The command of a calculator, which takes all arguments that follow."""
    parser.add_argument("command", nargs=argparse.REMAINDER, metavar="COMMAND [ARGUMENT...]",
                        help=f"the calculator; unless given, {unless_given}")


def parsed(parser):
    """The arguments, with the seed chosen where they have one; a command is no option."""
    result = parser.parse_args()
    if getattr(result, "command", []) and result.command[0].startswith("-"):
        parser.error(f"{result.command[0]} is not a command")
    if result.fresh:
        result.seed = random.SystemRandom().randrange(10**9)
    elif result.seed is None:
        result.seed = 1
    return result


def save(name, file):
    """Keeps a model under the system's temporary directory; where it is."""
    path = os.path.join(tempfile.gettempdir(), name)
    with open(path, "wb") as target:
        target.write(file)
    return path


def leave(main, *arguments):
    """Runs a script's main and exits with its status: 2 where the system refuses something, in a line of its words,
    and where nobody reads the output any more, quietly."""
    try:
        status = main(*arguments)
        print(end="", flush=True)
    except BrokenPipeError:
        os.dup2(os.open(os.devnull, os.O_WRONLY), sys.stdout.fileno())
        status = 2
    except OSError as error:
        print(f"{os.path.basename(sys.argv[0])}: {error}", file=sys.stderr)
        status = 2
    sys.exit(status)


# --- Comparing ---------------------------------------------------------------------------------

def shown(output, k):
    """The character at place k, as a word."""
    if k >= len(output):
        return "end of output"
    if output[k:k + 2] == b"\r\n":
        return "carriage return (CRLF)"
    words = {9: "tab", 10: "end of line", 13: "carriage return", 32: "space"}
    if output[k] in words:
        return words[output[k]]
    return f"'{chr(output[k])}'" if 32 < output[k] < 127 else f"byte {output[k]:02X}"


def quoted(output, start):
    """The line that begins at a place, between quotes: other than printable bytes as \\r or \\xef, a long line cut."""
    if start >= len(output):
        return "no line"
    line = output[start:].split(b"\n", 1)[0]
    parts = [chr(byte).encode("unicode_escape").decode("ascii") for byte in line[:LINE_SHOWN]]
    while sum(map(len, parts)) > LINE_SHOWN:
        parts.pop()
    return f'"{"".join(parts)}"' + ("..." if len(parts) < len(line) else "")


def first_difference(expected, got):
    """Where got first differs from expected, in words, and the two lines; lines and columns count from 1."""
    k = 0
    while k < len(expected) and k < len(got) and expected[k] == got[k]:
        k += 1
    start = expected.rfind(b"\n", 0, k) + 1       # of the line, in both
    line = expected.count(b"\n", 0, k) + 1
    return (f"line {line}, column {k - start + 1}: expected {shown(expected, k)}, got {shown(got, k)} "
            f"(expected {quoted(expected, start)}, got {quoted(got, start)})")


def check(command, file, expected, time_limit=None):
    """An empty word when the command prints the expected sheet, else what is wrong."""
    output, trouble = run(command, file, time_limit)
    wrong = [trouble] if trouble else []
    if output != expected:
        wrong.append(first_difference(expected, output))
    return "; ".join(wrong)
