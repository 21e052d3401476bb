#!/usr/bin/env python3
"""Try ./calculate, ./practice and ./build as their users do: shell commands, each with the status and the words that it must give.

    python3 tests/command/run.py

Builds the programs where the crates have changed since. The tests that change files work on a copy of the repository.
The last line is 'command: N tries, all as expected'; exit status 1 where one is not: each has its lines.
"""

import contextlib
import os
import pty
import re
import select
import shutil
import socket
import subprocess
import sys
import tempfile

ROOT = os.path.dirname(os.path.dirname(os.path.dirname(os.path.abspath(__file__))))
TIME_LIMIT = 300   # seconds for one command
# Where ./build proves its copy of the crates.
WORK = os.path.join(os.path.realpath(os.environ.get("TMPDIR") or "/tmp"), f"kuldrepso-build-{os.geteuid()}")
NOT_WHOLE = "calculate: the sheet could not be written whole\n"
UNREADABLE = "calculator: the input cannot be read\n"
CLOSED = "calculate: standard input is closed; a model file is read from it: ./calculate < FILE\n"
NAMES = "build: give one name: calculator or dealer, the programs, or kuldrepso, the library\n"
NOT_DEALT = "practice: the file cannot be written whole\n"
UNWRITTEN = "practice: standard output is closed; the file is written to it\n"


def stored(name, folder="examples"):
    """The bytes of a file of a folder."""
    with open(os.path.join(ROOT, folder, name), "rb") as source:
        return source.read()


A, B = stored("A.sheet"), stored("B.sheet")
DEALT = stored("stdout", "crates/dealer")   # M 3, R 2 and seed number 1234
DEALT_SHEET = (b"level 7\n"
               b"1 1 0.457476159212\n"
               b"1 2 0.259811317123\n"
               b"2 1 0.919344847486\n"
               b"2 2 0.871649004806\n"
               b"3 1 0.531535524186\n"
               b"3 2 0.307116530869\n")

# A shell command, run in the repository's folder; the status, standard output and standard error that it must have.
# LINK is a symbolic link to a symbolic link to ./calculate, PROGRAM the program itself; DEAL_LINK and DEALER are those of ./practice.
# EMPTY is an empty folder.
COMMANDS = [
    ("./calculate < examples/B.model", 0, B, ""),
    ("./calculate < examples/B-start.model", 0, stored("B-start.sheet"), ""),
    ("cat examples/B.model | ./calculate", 0, B, ""),
    ("cd / && \"$ROOT\"/calculate < \"$ROOT\"/examples/B.model", 0, B, ""),
    ("cd tests && ../calculate < ../examples/B.model", 0, B, ""),
    ("cd \"$EMPTY\" && \"$LINK\" < \"$ROOT\"/examples/B.model", 0, B, ""),
    ("cd \"$EMPTY\" && PATH=$ROOT:$PATH calculate < \"$ROOT\"/examples/B.model", 0, B, ""),
    ("CDPATH=/ ./calculate < examples/B.model", 0, B, ""),
    ("echo '00 0F 01 01 01 00 00 27 10 00 00 00 01 00 00 00 05' | xxd -r -p | ./calculate", 0, A, ""),
    ("echo '00 0F 01 01 01 00 00 27 10 00 00 00 01 00 00 00 05' | "
     "python3 -c 'import sys; sys.stdout.buffer.write(bytes.fromhex(sys.stdin.read()))' | ./calculate", 0, A, ""),
    ("./calculate < examples/B.model 2>&-", 0, B, ""),
    ("./calculate < examples/B.model > /dev/full", 2, b"", NOT_WHOLE),
    ("./calculate < /dev/null > /dev/full", 2, b"", NOT_WHOLE),
    ("set -o pipefail; { sleep 1; ./calculate < examples/B.model; } | true", 2, b"", NOT_WHOLE),
    ("./calculate < examples/B.model >&-", 2, b"", "calculate: standard output is closed; the sheet is written to it\n"),
    ("./calculate <&-", 2, b"", CLOSED),
    ("./calculate <&- >&-", 2, b"", CLOSED),
    ("./calculate <&- 2>&-", 2, b"", ""),
    ("./calculate < examples", 2, b"", UNREADABLE),
    ("./calculate 0> /dev/null", 2, b"", UNREADABLE),
    ("./calculate examples/B.model < /dev/null", 2, b"",
     "calculate: takes no arguments; the model file is read from standard input: ./calculate < FILE\n"),
    ("./build", 2, b"", NAMES),
    ("./build sheet", 2, b"", NAMES),
    ("\"$PROGRAM\" < examples/B.model", 0, B, ""),
    ("\"$PROGRAM\" < /dev/null", 0, b"refused 1\n", ""),
    ("\"$PROGRAM\" < examples", 0, b"", UNREADABLE),
    ("\"$PROGRAM\" <&-", 0, b"", UNREADABLE),
    ("\"$PROGRAM\" < examples/B.model > /dev/full", 0, b"", "calculator: the sheet cannot be written whole\n"),
    ("\"$PROGRAM\" < examples/B.model >&-", 0, b"", "calculator: the sheet cannot be written whole\n"),
    ("cp \"$PROGRAM\" \"$EMPTY\"/copy && \"$EMPTY\"/copy < examples/B.model", 0, B, ""),
    ("./practice 3 2 1234", 0, DEALT, ""),
    ("./practice 3 2 1234 | cat", 0, DEALT, ""),
    ("./practice 003 02 00000000000000000000001234", 0, DEALT, ""),
    ("./practice 3 2 1234 > \"$EMPTY\"/mine.model && ./calculate < \"$EMPTY\"/mine.model", 0, DEALT_SHEET, ""),
    ("./practice 1 1 0", 0, bytes.fromhex("00 0F 01 01 01 00 00 27 10 00 00 00 04 00 00 47 51"), ""),
    ("./practice 1 1 65536", 0, bytes.fromhex("00 0F 01 01 01 00 00 27 10 00 00 00 0B 00 00 A3 FA"), ""),
    ("./practice 1 1 70000", 0, bytes.fromhex("00 0F 01 01 01 00 00 27 10 00 00 00 06 00 00 8A C9"), ""),
    ("./practice 1 1 2147483648", 0, bytes.fromhex("00 0F 01 01 01 00 00 27 10 00 00 00 0C 00 00 C7 51"), ""),
    ("./practice 1 1 4294967295", 0, bytes.fromhex("00 0F 01 01 01 00 00 27 10 00 00 00 04 00 00 30 18"), ""),
    ("./practice 64 8 4294967295 | wc -c", 0, b"16397\n", ""),
    ("cd / && \"$ROOT\"/practice 3 2 1234", 0, DEALT, ""),
    ("cd tests && ../practice 3 2 1234", 0, DEALT, ""),
    ("cd \"$EMPTY\" && \"$DEAL_LINK\" 3 2 1234", 0, DEALT, ""),
    ("cd \"$EMPTY\" && PATH=$ROOT:$PATH practice 3 2 1234", 0, DEALT, ""),
    ("./practice 3 2 1234 2>&-", 0, DEALT, ""),
    ("./practice 3 2 1234 <&-", 0, DEALT, ""),
    ("./practice 0 2 1234 2>&-", 1, b"", ""),
    ("./practice 3 2 1234 > /dev/full", 2, b"", NOT_DEALT),
    ("./practice 3 2 1234 > /dev/full 2>&-", 2, b"", ""),
    ("set -o pipefail; { sleep 1; ./practice 3 2 1234; } | true", 2, b"", NOT_DEALT),
    ("./practice 3 2 1234 >&-", 2, b"", UNWRITTEN),
    ("./practice 0 2 1234 >&-", 2, b"", UNWRITTEN),
    ("\"$DEALER\" 3 2 1234", 0, DEALT, ""),
    ("\"$DEALER\" 3 2 1234 > /dev/full", 0, b"", NOT_DEALT),
    ("\"$DEALER\" 3 2 1234 >&-", 0, b"", NOT_DEALT),
    ("cp \"$DEALER\" \"$EMPTY\"/dealer && \"$EMPTY\"/dealer 3 2 1234", 0, DEALT, ""),
]

# Arguments that ./practice and its program refuse, by what their line says. M is told before R, and R before the seed number.
USAGE = "give M, R and a seed number, as in ./practice 3 2 1234 > FILE"
WRONG_STATES = "M, the number of states, is to be a whole number from 1 to 64"
WRONG = {
    USAGE: ["", "3", "3 2", "3 2 1234 1", "3 2 1234 ''"],
    WRONG_STATES: [
        "0 2 1234", "65 2 1234", "-3 2 1234", "+3 2 1234", "' 3' 2 1234", "'3 ' 2 1234", "3. 2 1234", "'' 2 1234", "three 2 1234", "0x3 2 1234",
        "4294967299 2 1234", "18446744073709551615 2 1234", "18446744073709551619 2 1234", "0 0 x", "x 9 -1"],
    "R, the highest moment, is to be a whole number from 1 to 8": [
        "3 0 1234", "3 9 1234", "3 -2 1234", "3 '' 1234", "3 two 1234", "3 18446744073709551618 1234", "3 9 x"],
    "the seed number is to be a whole number from 0 to 4294967295": [
        "3 2 4294967296", "3 2 -1", "3 2 ''", "3 2 1e3", "3 2 12:4", "3 2 12/4", "3 2 18446744073709552850",
        "3 2 ٣", "3 2 $(printf %05000d 3)"],
}

tried = 0
faults = []


def expect(what, found, wanted):
    """Count a try; keep what is found where it is not what is wanted."""
    global tried
    tried += 1
    if found != wanted:
        faults.append(f"{what}\n  found:  {found}\n  wanted: {wanted}")


def run(command, folder=ROOT, fed=None, **settings):
    """Status, standard output and standard error of a shell command."""
    how = {"input": fed} if fed is not None else {"stdin": subprocess.DEVNULL}
    done = subprocess.run(["bash", "-c", command], cwd=folder, env={**os.environ, "ROOT": ROOT, **settings}, timeout=TIME_LIMIT,
                          stdout=subprocess.PIPE, stderr=subprocess.PIPE, check=False, **how)
    return done.returncode, done.stdout, done.stderr.decode()


def commands(room):
    """Every line of the table."""
    places = {"LINK": os.path.join(room, "second link"), "DEAL_LINK": os.path.join(room, "second deal link"),
              "EMPTY": os.path.join(room, "empty"), "PROGRAM": run("./build calculator")[1].decode().strip(),
              "DEALER": run("./build dealer")[1].decode().strip()}
    os.mkdir(places["EMPTY"])
    os.symlink(os.path.join(ROOT, "calculate"), os.path.join(room, "link"))
    os.symlink("link", places["LINK"])
    os.symlink(os.path.join(ROOT, "practice"), os.path.join(room, "deal link"))
    os.symlink("deal link", places["DEAL_LINK"])
    for command, status, output, words in COMMANDS:
        if "xxd" not in command or shutil.which("xxd"):
            expect(command, run(command, **places), (status, output, words))
    for words, cases in WRONG.items():
        for arguments in cases:
            expect(f"./practice {arguments}", run(f"./practice {arguments}"), (1, b"", f"practice: {words}\n"))
            expect(f"the dealer, {arguments}", run(f"\"$DEALER\" {arguments}", **places), (0, b"", f"practice: {words}\n"))


def given(descriptor):
    """Status, standard output and standard error of ./calculate whose standard input is an open descriptor."""
    done = subprocess.run(["./calculate"], cwd=ROOT, stdin=descriptor, stdout=subprocess.PIPE, stderr=subprocess.PIPE,
                          timeout=TIME_LIMIT, check=False)
    return done.returncode, done.stdout, done.stderr.decode()


def terminal():
    """With no file given, ./calculate does not wait for one to be typed; ./practice writes no bytes to a screen."""
    ours, theirs = pty.openpty()
    expect("./calculate on a terminal", given(theirs),
           (2, b"", "calculate: no model file; one is read from standard input: ./calculate < FILE\n"))
    for words, status, line in (("3 2 1234", 2, "the file is bytes, not text: send it to a file, as in ./practice 3 2 1234 > FILE"),
                                ("", 1, USAGE), ("0 2 1234", 1, WRONG_STATES)):
        done = subprocess.run(["./practice", *words.split()], cwd=ROOT, stdin=theirs, stdout=theirs, stderr=subprocess.PIPE,
                              timeout=TIME_LIMIT, check=False)
        expect(f"./practice {words} on a terminal", (done.returncode, done.stderr.decode(), select.select([ours], [], [], 0)[0]),
               (status, f"practice: {line}\n", []))
    os.close(ours)
    os.close(theirs)


def broken_off():
    """An input that fails after its first bytes: a pipe that would have to be waited for, a connection that is reset."""
    reader, writer = os.pipe()
    os.set_blocking(reader, False)
    os.write(writer, bytes(10))
    expect("a pipe that is not ready", given(reader), (2, b"", UNREADABLE))
    os.close(reader)
    os.close(writer)
    ours, theirs = socket.socketpair()
    ours.send(b"never read")
    theirs.close()
    expect("a connection that is reset", given(ours.fileno()), (2, b"", UNREADABLE))
    ours.close()


def format_page():
    """docs/FORMAT.md: each example of a refusal is refused by its rule, in its words; its program writes pair.model."""
    with open(os.path.join(ROOT, "docs", "FORMAT.md"), encoding="utf-8") as source:
        page = source.read()
    rows = re.findall(r"^\| (\d+) \| ([^|]*) \| [^|]* \| ([^|]*)\|$", page, re.M)
    expect("rules in docs/FORMAT.md", [int(row[0]) for row in rows], [1, 2, 3, 4, 5, 6, 7, 8, 16, 9, 10, 11, 12, 13])
    for rule, words, example in rows[:-1]:
        found = run("./calculate", fed=bytes.fromhex(example.strip(" `")))
        expect(f"the example of rule {rule}", found,
               (1, f"refused {rule}\n".encode(), f"calculate: rule {rule}: {words} (docs/FORMAT.md)\n"))
    program = re.search(r"^```python\n(.*?)^```", page, re.M | re.S)[1]
    expect("the program of docs/FORMAT.md", run("python3 -c \"$TEXT\"", TEXT=program), (0, stored("pair.model"), ""))


def copied(room):
    """A copy of what the commands need, with what ./build has made, and without what rt keeps beside a crate."""
    copy = os.path.join(room, "a copy")
    os.makedirs(os.path.join(copy, "target"))
    for name in ("build", "calculate", "practice", "crates.txt"):
        shutil.copy(os.path.join(ROOT, name), copy)
    for name in ("crates", "docs", "examples", "target/built"):
        shutil.copytree(os.path.join(ROOT, name), os.path.join(copy, name), ignore=shutil.ignore_patterns("out"))
    return copy


def edit(path, old, new):
    """Replace a text in a file and leave the file's time as it was."""
    times = os.stat(path)
    with open(path, encoding="utf-8") as source:
        text = source.read()
    assert text.count(old) == 1, f"{path} has {old!r} {text.count(old)} times"
    with open(path, "w", encoding="utf-8") as target:
        target.write(text.replace(old, new))
    os.utime(path, ns=(times.st_atime_ns, times.st_mtime_ns))


def built_anew(what, found, wanted, name, total):
    """After an edit of the program the answer is that of the crates, with a line for each crate before its own line."""
    status, output, words = found
    lines = words.splitlines()
    expect(f"{what}, edited", (status, output, lines[-1:]), wanted)
    expect(f"{what}, edited: its first line", lines[0],
           f"build: proving the crates and making {name}, a minute or two where nothing is proved yet")
    counts = [re.sub(r": \w+$", "", line) for line in lines[1:-1]]
    expect(f"{what}, edited: a line for each crate", counts, [f"build: {k} of {total}" for k in range(1, total + 1)])
    expect(f"{what}, edited: its last crate", lines[-2], f"build: {total} of {total}: {name}")


def rebuilt(copy):
    """After an edit that the prover accepts the answer is that of the crates; each crate has its line."""
    expect("a copy", run("./calculate < examples/B.model", copy), (0, B, ""))
    expect("a copy's file", run("./practice 3 2 1234", copy), (0, DEALT, ""))
    edit(os.path.join(copy, "crates", "dealer", "src", "main.rt"), "give M, R and a seed number", "give M, R and a seed")
    built_anew("./practice", run("./practice", copy), (1, b"", ["practice: give M, R and a seed, as in ./practice 3 2 1234 > FILE"]), "dealer", 9)
    edit(os.path.join(copy, "crates", "calculator", "src", "main.rt"), "the input cannot be read", "the input is unreadable")
    built_anew("./calculate", run("./calculate < /", copy), (2, b"", ["calculator: the input is unreadable"]), "calculator", 16)
    expect("the edited program again", run("./calculate < /", copy), (2, b"", "calculator: the input is unreadable\n"))


def without_rt(room):
    """A PATH with the system's tools that ./calculate uses, and no rt."""
    folder = os.path.join(room, "no rt")
    os.mkdir(folder)
    for tool in ("bash", "cut", "env", "find", "readlink", "sed", "sha256sum", "sort"):
        os.symlink(shutil.which(tool), os.path.join(folder, tool))
    return folder


def stale(room, copy):
    """After an edit that the prover refuses there is no answer, and the old digits do not come out."""
    command, no_rt = "./calculate < examples/B.model", without_rt(room)
    sheet = os.path.join(copy, "crates", "sheet", "src", "lib.rt")
    edit(sheet, 'b"level "', 'b"Level "')
    status, output, words = run(command, copy)
    log = os.path.join(copy, "target", "build-calculator.log")
    expect("an edit that the prover refuses", (status, output), (2, b""))
    expect("its reason", words.splitlines()[-1],
           f"build: no calculator: sheet NOT PROVED (exit 1); all that the prover said is in {log} "
           f"(to start from nothing, remove {WORK})")
    with open(log, encoding="utf-8") as source:
        expect("its log", f"{copy}/crates/sheet/proofs/" in source.read(), True)
    expect("the same without the toolchain", run(command, copy, PATH=no_rt),
           (2, b"", "build: no calculator: it is made from the crates by rt, the Rattle toolchain, which is not on this machine\n"))
    edit(sheet, 'b"Level "', 'b"level "')
    expect("the edit undone", run(command, copy), (0, B, ""))
    expect("the edit undone, without the toolchain", run(command, copy, PATH=no_rt), (0, B, ""))


# Stands in for rt where the toolchain's own work does not matter: it keeps the last line of crates.txt for each program that
# it is to make, and hands a program over. It would swallow a model file that it is given.
STAND_IN = """#!/bin/sh
cat > /dev/null
[ "$1" = run ] || exit 0
sleep $DELAY
mkdir -p out
cp "$PROGRAM" "out/${PWD##*/}"
eval "$MEANWHILE"
tail -n 1 ../../crates.txt >> "$CALLS"
echo "$SAYS"
exit $STATUS
"""
DIES = "#!/bin/sh\necho level 3\nkill -9 $$\n"
FAILS = "#!/bin/sh\necho no such library >&2\nexit 127\n"


class StandIn:
    """./calculate in the copy, from nothing, with the stand-in for rt."""

    def __init__(self, room, copy):
        self.copy, self.calls = copy, os.path.join(room, "calls")
        self.dies, self.fails = os.path.join(room, "dies"), os.path.join(room, "fails")
        for path, text in ((os.path.join(room, "bin", "rt"), STAND_IN), (self.dies, DIES), (self.fails, FAILS)):
            os.makedirs(os.path.dirname(path), exist_ok=True)
            with open(path, "w", encoding="utf-8") as target:
                target.write(text)
            os.chmod(path, 0o755)
        self.rooms = os.path.join(room, "rooms")
        os.mkdir(self.rooms)
        self.settings = {"PATH": os.path.join(room, "bin") + ":" + os.environ["PATH"], "CALLS": self.calls, "COPY": copy,
                         "DELAY": "0", "MEANWHILE": "", "SAYS": "rt: proved", "STATUS": "0", "TMPDIR": self.rooms,
                         "PROGRAM": run("./build calculator")[1].decode().strip()}
        self.fresh()

    def path(self, *names):
        return os.path.join(self.copy, *names)

    def work(self, *names):
        return os.path.join(self.rooms, os.path.basename(WORK), *names)

    def fresh(self):
        """Nothing is made, and rt was never called."""
        shutil.rmtree(self.path("target"), ignore_errors=True)
        shutil.rmtree(self.work(), ignore_errors=True)
        with contextlib.suppress(OSError):
            os.remove(self.calls)

    def run(self, command="./calculate < examples/B.model", **settings):
        return run(command, self.copy, **{**self.settings, **settings})

    def called(self):
        """The lines of crates.txt that rt has seen, one for each call."""
        if not os.path.exists(self.calls):
            return []
        with open(self.calls, encoding="utf-8") as source:
            return source.read().splitlines()


def write(path, text):
    with open(path, "a", encoding="utf-8") as target:
        target.write(text)


def what_counts(stand):
    """Every file that is proved counts, whatever its kind; an edit that the prover must refuse does not."""
    link = stand.path("link.antt")
    shutil.move(stand.path("crates/laws/specs/Rounding.antt"), link)
    os.symlink(link, stand.path("crates/laws/specs/Rounding.antt"))
    steps = [("nothing", lambda: None, 1), ("nothing again", lambda: None, 1), ("a proof", lambda: write(link, "-- \n"), 2),
             ("a stored run", lambda: write(stand.path("crates/calculator/stdin"), " "), 3),
             ("a new file", lambda: write(stand.path("crates/sheet/src/new.rt"), "// \n"), 4),
             ("a file less", lambda: os.remove(stand.path("crates/sheet/src/new.rt")), 4),
             ("an edit to be refused", lambda: write(stand.path("crates/sheet/must-fail/new.edit"), "# \n"), 4),
             ("the list of crates", lambda: write(stand.path("crates.txt"), "# more\n"), 5)]
    for what, change, calls in steps:
        change()
        expect(f"{what} changed", (stand.run()[:2], len(stand.called())), ((0, B), calls))


def while_building(stand):
    """An edit in the minutes of a proof has no part in it, also where it is undone; two builds at once are one."""
    stand.fresh()
    last = stand.run("tail -n 1 crates.txt")[1].decode().strip()
    meanwhile = "echo '# meanwhile' >> \"$COPY/crates.txt\""
    expect("an edit meanwhile", (stand.run(MEANWHILE=meanwhile)[:2], stand.called()), ((0, B), [last]))
    expect("the call after it", (stand.run()[:2], stand.called()), ((0, B), [last, "# meanwhile"]))
    stand.fresh()
    both = "./calculate < examples/B.model > other & ./calculate < examples/B.model; wait $! && cat other"
    expect("two at once", (stand.run(both, DELAY="1")[:2], len(stand.called())), ((0, B + B), 1))
    stand.fresh()
    failing = stand.run(both, DELAY="1", STATUS="1")
    lines = [line for line in failing[2].splitlines() if line.startswith("build: no calculator: calculator NOT PROVED (exit 1); ")]
    expect("two at once that fail", (failing[:2], len(lines)), ((2, b""), 2))


def in_trouble(stand):
    """What cannot be made, kept or run gives a line and status 2."""
    stand.fresh()
    status, output, words = stand.run(STATUS="2", SAYS="rt: no toolchain here")
    expect("an rt that fails", (status, output, "build: no calculator: no toolchain here; " in words), (2, b"", True))
    shutil.rmtree(stand.work("crates/calculator/out"))
    os.makedirs(stand.work("crates/calculator/out"))
    write(stand.work("crates/calculator/out/calculator.stamp"), "kept")
    expect("a stamp without its program", stand.run()[:2], (0, B))
    stand.run("rm -r target/built")
    os.makedirs(stand.work("crates/gone/out"))
    write(stand.work("crates/gone/lib.rt"), "// \n")
    write(stand.work("crates/gone/out/kept"), "kept")
    expect("a crate of another checkout", stand.run()[:2], (0, B))
    expect("its file", os.path.exists(stand.work("crates/gone/lib.rt")), False)
    expect("what rt kept of it", os.path.exists(stand.work("crates/gone/out/kept")), True)
    os.truncate(stand.run("./build calculator")[1].decode().strip(), 0)
    expect("an empty program", stand.run()[:2], (0, B))
    stand.fresh()
    expect("a program that is ended", stand.run(PROGRAM=stand.dies)[::2][0], 2)
    expect("its words", stand.run(PROGRAM=stand.dies)[1:], (b"", "calculate: the program ended with status 137\n"))
    expect("a dealer that is ended", stand.run("./practice 3 2 1234", PROGRAM=stand.dies)[0], 2)
    expect("its words", stand.run("./practice 3 2 1234 > /dev/null"), (2, b"", "practice: the program ended with status 137\n"))
    stand.fresh()
    expect("a dealer that cannot run", stand.run("./practice 3 2 1234", PROGRAM=stand.fails)[2].splitlines()[-1],
           "practice: the program ended with status 127: no such library")
    stand.fresh()
    write(stand.path("target"), "")
    expect("no folder to write to", stand.run(), (2, b"", f"build: no calculator: cannot write to {stand.copy}/target\n"))
    expect("the same for a file", stand.run("./practice 3 2 1234"), (2, b"", f"build: no dealer: cannot write to {stand.copy}/target\n"))
    os.remove(stand.path("target"))
    shutil.rmtree(stand.work(), ignore_errors=True)
    write(stand.work(), "")
    expect("no folder to prove in", stand.run(), (2, b"", f"build: no calculator: cannot write to {stand.work()}\n"))
    os.remove(stand.work())
    os.remove(stand.path("docs/FORMAT.md"))
    stand.run()
    expect("no page of rules", stand.run("./calculate < /dev/null"),
           (1, b"refused 1\n", "calculate: rule 1: a row of the table (docs/FORMAT.md)\n"))
    os.remove(stand.path("crates.txt"))
    expect("no list of crates", stand.run()[2].splitlines()[-1], "build: no calculator: the crates cannot be read")


def main():
    with tempfile.TemporaryDirectory() as room:
        room = os.path.realpath(room)
        commands(room)
        terminal()
        broken_off()
        format_page()
        copy = copied(room)
        rebuilt(copy)
        stale(room, copy)
        stand = StandIn(room, copy)
        what_counts(stand)
        while_building(stand)
        in_trouble(stand)
    for fault in faults:
        print(fault)
    if faults:
        print(f"command: {tried} tries, {len(faults)} not as expected")
        return 1
    print(f"command: {tried} tries, all as expected")
    return 0


if __name__ == "__main__":
    sys.exit(main())
