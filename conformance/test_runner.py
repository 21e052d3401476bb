#!/usr/bin/env python3
"""Tests of the runner, of the stored calls' names and of the start lines: python3 conformance/test_runner.py"""

import os
import shutil
import subprocess
import sys
import tempfile
import time
import unittest
from unittest import mock

sys.dont_write_bytecode = True
HERE = os.path.dirname(os.path.abspath(__file__))
ROOT = os.path.dirname(HERE)
sys.path.insert(0, HERE)

import run  # noqa: E402
import runner  # noqa: E402
import run_calls  # noqa: E402
import calculator  # noqa: E402
import call_cases  # noqa: E402
import cases  # noqa: E402
import inputs  # noqa: E402
import library  # noqa: E402

FILE = bytes(k % 251 for k in range(16_653))


def python(text):
    """The command of a program that is given as text."""
    return [sys.executable, "-B", "-c", text]


SIZES = python("import os\nwhile True:\n    n = len(os.read(0, 20000))\n    if not n: break\n    print(n)")
REFERENCE = [sys.executable, "-B", os.path.join(ROOT, "reference", "calculator.py")]
COPY = python("import sys; sys.stdout.buffer.write(sys.stdin.buffer.read())")


class Feeding(unittest.TestCase):

    def test_pieces_are_the_file(self):
        for size in (0, 1, 2, 7, 8, 13, 17, 29, 4_095, 4_096, 16_397, 16_653, 20_000):
            file = bytes(size)
            self.assertEqual(b"".join(runner.pieces(file)), file)
            self.assertTrue(size < 2 or len(runner.pieces(file)) > 1, size)
            self.assertLess(max(map(len, runner.pieces(file))), 4_100)

    def test_a_read_gets_one_piece(self):
        for size in (1, 13, 29, 4_200, 16_653):
            sizes = [len(piece) for piece in runner.pieces(FILE[:size])]
            self.assertEqual(runner.run(SIZES, FILE[:size]), ("".join(f"{k}\n" for k in sizes).encode(), ""))

    def test_whole_file_arrives(self):
        self.assertEqual(runner.run(COPY, FILE), (FILE, ""))
        self.assertEqual(runner.run(COPY, b""), (b"", ""))

    def test_whole_file_arrives_where_the_system_does_not_tell(self):
        with mock.patch.object(runner, "fcntl", None):
            self.assertEqual(runner.run(COPY, FILE), (FILE, ""))


class Ends(unittest.TestCase):

    def test_input_not_read(self):
        self.assertEqual(runner.run(python("print(5)"), FILE), (b"5\n", ""))

    def test_input_closed_early(self):
        text = "import os, time; os.read(0, 3); os.close(0); time.sleep(0.1); print(5)"
        self.assertEqual(runner.run(python(text), FILE), (b"5\n", ""))

    def test_exit_status_does_not_count(self):
        self.assertEqual(runner.run(python("print(5); exit(3)"), FILE), (b"5\n", ""))

    def test_signal(self):
        text = "import os; os.write(1, b'5'); os.kill(os.getpid(), 9)"
        self.assertEqual(runner.run(python(text), FILE), (b"5", "ended by signal 9"))
        self.assertEqual(runner.check(python(text), FILE, b"5"), "ended by signal 9")

    def test_no_end(self):
        start = time.monotonic()
        for command in (["sleep", "60"], ["sh", "-c", "sleep 60; echo"], ["sh", "-c", "exec >&-; sleep 60"],
                        ["sh", "-c", "sleep 60 &"]):
            self.assertEqual(runner.run(command, FILE, 0.3), (b"", "no end within 0.3 seconds"))
        self.assertLess(time.monotonic() - start, 30)

    def test_time_limit(self):
        with mock.patch.multiple(runner, TIME_LIMIT=0.3, LARGE_TIME_LIMIT=0.6):
            for size, limit in ((0, 0.3), (999, 0.3), (1000, 0.6), (16_653, 0.6)):
                self.assertEqual(runner.run(["sleep", "60"], FILE[:size]), (b"", f"no end within {limit} seconds"))

    def test_output_without_end(self):
        output, trouble = runner.run(["yes"], FILE, 30)
        self.assertEqual((len(output), trouble), (runner.OUTPUT_LIMIT + 1, "more than 1000000 bytes of output"))

    def test_no_such_command(self):
        with self.assertRaises(OSError):
            runner.run(["no-such-command"], FILE)


class Words(unittest.TestCase):

    def test_first_difference(self):
        sheet = b"level 3\n1 1 0.5\n"
        for got, words, lines in (
                (b"level 4\n1 1 0.5\n", "line 1, column 7: expected '3', got '4'", '"level 3", got "level 4"'),
                (b"level 3\n1 1 0.6\n", "line 2, column 7: expected '5', got '6'", '"1 1 0.5", got "1 1 0.6"'),
                (b"refused 7\n", "line 1, column 1: expected 'l', got 'r'", '"level 3", got "refused 7"'),
                (b"level 3\n", "line 2, column 1: expected '1', got end of output", '"1 1 0.5", got no line'),
                (b"level 3\n\n", "line 2, column 1: expected '1', got end of line", '"1 1 0.5", got ""'),
                (b"level 3\n1 1 0.5", "line 2, column 8: expected end of line, got end of output",
                 '"1 1 0.5", got "1 1 0.5"'),
                (b"level 3\n1 1 0.5\n2", "line 3, column 1: expected end of output, got '2'", 'no line, got "2"'),
                (b"level 3\r\n1 1 0.5\r\n", "line 1, column 8: expected end of line, got carriage return (CRLF)",
                 r'"level 3", got "level 3\r"'),
                (b"level 3\r1 1 0.5\r", "line 1, column 8: expected end of line, got carriage return",
                 r'"level 3", got "level 3\r1 1 0.5\r"'),
                (b"level 3 \n1 1 0.5\n", "line 1, column 8: expected end of line, got space",
                 '"level 3", got "level 3 "'),
                (b"level\t3\n", "line 1, column 6: expected space, got tab", r'"level 3", got "level\t3"'),
                (b"\xef\xbb\xbflevel 3\n", "line 1, column 1: expected 'l', got byte EF",
                 r'"level 3", got "\xef\xbb\xbflevel 3"'),
                (b"", "line 1, column 1: expected 'l', got end of output", '"level 3", got no line')):
            self.assertEqual(runner.first_difference(sheet, got), f"{words} (expected {lines})")

    def test_long_line(self):
        for line, words in ((b"5" * 60, f'"{"5" * 60}"'), (b"5" * 61, f'"{"5" * 60}"...'),
                            (b"\x00" * 15, '"' + r"\x00" * 15 + '"'), (b"\x00" * 10**6, '"' + r"\x00" * 15 + '"...'),
                            (b"5" + b"\x00" * 15, '"5' + r"\x00" * 14 + '"...')):
            self.assertTrue(runner.first_difference(b"level 3\n", line).endswith(f", got {words})"), words)

    def test_check(self):
        self.assertEqual(runner.check(COPY, b"abc", b"abc"), "")
        self.assertEqual(runner.check(COPY, b"abc", b"abd"),
                         """line 1, column 3: expected 'd', got 'c' (expected "abd", got "abc")""")


class Programs(unittest.TestCase):
    """run.py and compare.py, from another folder."""

    def run_program(self, name, *arguments):
        with tempfile.TemporaryDirectory() as folder:
            command = [sys.executable, "-B", os.path.join(HERE, name), *arguments]
            return subprocess.run(command, cwd=folder, env={**os.environ, "TMPDIR": folder}, capture_output=True,
                                  text=True, check=False)

    def compare(self, *arguments):
        return self.run_program(os.path.join("..", "reference", "compare.py"), *arguments)

    def test_run(self):
        result = self.run_program("run.py", "printf", r"refused 3\r\n")
        self.assertEqual((result.returncode, result.stderr), (1, ""))
        self.assertIn("hand-A-version-3.model: line 1, column 10: expected end of line, got carriage return (CRLF) "
                      '(expected "refused 3", got "refused 3\\r")\n', result.stdout)
        tried = [line.split(".model: ")[0] for line in result.stdout.splitlines()[:-1]]
        self.assertEqual(tried, sorted(tried, key=lambda name: (not name.startswith("hand-"), name)))
        self.assertRegex(result.stdout, r"\ncomparison kit: 0 passed, \d+ failed\n\Z")

    def test_compare(self):
        result = self.compare("--count", "4", "--seed", "2", *REFERENCE)
        self.assertEqual((result.returncode, result.stderr), (0, ""))
        self.assertTrue(result.stdout.endswith("compared 4 models, seed 2: all equal\n"))

    def test_compare_different(self):
        result = self.compare("--count", "4", sys.executable, "-B", os.path.join(HERE, "mutants.py"), "--as", "CRLF")
        self.assertEqual((result.returncode, result.stderr), (1, ""))
        self.assertIn(": line 1, column 8: expected end of line, got carriage return (CRLF) (expected ", result.stdout)
        self.assertIn("\nmodel 1 of 4 differs, seed 1; it is saved as ", result.stdout)

    def compare_with_build(self, script):
        """compare.py without a command, in a copy that has this script as its build."""
        with tempfile.TemporaryDirectory() as root:
            for name in ("reference", "conformance"):
                shutil.copytree(os.path.join(ROOT, name), os.path.join(root, name),
                                ignore=shutil.ignore_patterns("files"))
            if script is not None:
                with open(os.path.join(root, "build"), "w", encoding="utf-8") as target:
                    target.write("#!/bin/sh\n" + script)
                os.chmod(target.name, 0o755)
            return self.run_program(os.path.join(root, "reference", "compare.py"), "--count", "4")

    def test_compare_without_command(self):
        program = f'#!/bin/sh\\nexec "{sys.executable}" -B "{REFERENCE[-1]}"\\n'
        make = f"""cd "${{0%/*}}"; printf '{program}' > 'a program'; chmod +x 'a program'; echo proving >&2\n"""
        result = self.compare_with_build(f'[ "$*" = calculator ] || exit 2\n{make}echo "$PWD/a program"')
        self.assertEqual((result.returncode, result.stderr), (0, "proving\n"))
        self.assertTrue(result.stdout.endswith("compared 4 models, seed 1: all equal\n"))
        result = self.compare_with_build("echo /bin/echo")
        self.assertEqual((result.returncode, result.stderr), (1, ""))
        result = self.compare_with_build("echo 'build: no calculator' >&2; exit 2")
        self.assertEqual((result.returncode, result.stdout, result.stderr), (2, "", "build: no calculator\n"))
        for script, words in ((None, "No such file"), ("exit 0", "printed no path"), ("echo no-program", "no-program")):
            result = self.compare_with_build(script)
            self.assertEqual((result.returncode, result.stderr.count("\n")), (2, 1))
            self.assertIn(words, result.stderr)

    def test_no_end(self):
        text = "import os, run, runner, sys; runner.TIME_LIMIT = 0.3; sys.exit(run.main(['sleep', '60']))"
        result = subprocess.run(python(text), cwd=HERE, capture_output=True, text=True, check=False)
        lines = result.stdout.splitlines()
        self.assertEqual((result.returncode, result.stderr, len(lines)), (1, "", 4))
        for name, line in zip(("hand-A", "hand-A-moments-9"), lines):
            self.assertTrue(line.startswith(f"{name}.model: no end within 0.3 seconds; line 1, column 1: "), line)
        self.assertEqual(lines[2:], ["2 models had no end in time: the models that follow are not tried",
                                     "comparison kit: 0 passed, 2 failed"])

    def test_nobody_reads(self):
        for name, arguments in (("run.py", ("printf", "5")), ("search.py", ())):
            command = [sys.executable, "-B", os.path.join(HERE, name), *arguments]
            with subprocess.Popen(command, stdout=subprocess.PIPE, stderr=subprocess.PIPE) as process:
                process.stdout.close()
                self.assertEqual((process.stderr.read(), process.wait()), (b"", 2))

    def test_no_run(self):
        for result in (self.run_program("run.py"), self.run_program("run.py", "--wrong"),
                       self.run_program("run.py", "no-such-command"), self.compare("no-such-command"),
                       self.compare("--seed", "1", "--fresh", *REFERENCE), self.compare("--program", *REFERENCE)):
            self.assertEqual((result.returncode, result.stderr.count("\n")), (2, 1))


class StoredCalls(unittest.TestCase):

    def test_names_tell_their_ends(self):
        right = {"hand": (call_cases.B, 3), "none": (call_cases.B, 4), "refused-01": (b"", 3), "refused-02": (FILE, 3)}
        for name, (file, n) in right.items():
            each = call_cases.remainders(name, file, 1, n, 1)
            self.assertEqual(call_cases.case(each).name, name)
            for other in right.keys() - {name}:
                with self.assertRaises(ValueError):
                    call_cases.case(each._replace(name=other))

    def test_an_accepted_call_that_answers_1_is_not_none(self):
        for each in (call_cases.calculate("level-1", call_cases.A, 1), call_cases.series("1-time", call_cases.B, [1])):
            self.assertEqual(call_cases.case(each).answer, 1)

    def test_every_row_and_end_is_stored(self):
        for call in library.CALLS:
            stored = [each for each in run_calls.stored() if each.call == call]
            counts = inputs.tally(call, [end for each in stored for end in inputs.reached(
                call, each.given, cases.expected(each))])
            self.assertEqual([end for end, count in counts.items() if not count], [], call)

    def test_there_and_back(self):
        """What one call of the converter gives for a name, the other gets for it, and gives what the first got."""
        there, back = ({each.name: each for each in run_calls.stored() if each.call == call
                        and each.name.startswith("there-and-back-")} for call in ("to_version_2", "to_version_1"))
        self.assertEqual(there.keys(), back.keys())
        self.assertGreater(len(there), 15)
        for name, each in there.items():
            for first, second in ((each, back[name]), (back[name], each)):
                self.assertEqual((bytes(first.written["out"]), first.answer), (second.given["file"],
                                                                               len(second.given["file"])), name)

    def test_practice_files(self):
        """What a call of practice gives by the name of a model is that model; its sheet has figures."""
        dealt = {each.name: each for each in run_calls.stored() if each.call == "practice"}
        names = [name for name in run.names() if name.startswith("practice-")]
        self.assertEqual(names, sorted(name for name in dealt if name.startswith("practice-")))
        self.assertGreaterEqual(len(names), 30)
        for name in names:
            each, file = dealt[name], run.stored(name + ".model")
            self.assertEqual((each.answer, bytes(each.written["out"])), (len(file), file), name)
            self.assertRegex(run.stored(name + ".sheet"), rb"\Alevel \d+\n1 1 [01]\.\d{12}\n", name)
        for word, wanted in (("states", {1, 64}), ("highest", {1, 8}), ("seed", {0, 1, 2**31, 2**32 - 1})):
            self.assertLessEqual(wanted, {dealt[name].given[word] for name in names})

    def test_row_means(self):
        """The number of row means is N M R, with N the largest level; a refused call gives none. Levels do not fall,
        and none is above 2 m + 51."""
        numbers = {"calculate": [], "series": []}
        for each in run_calls.stored():
            if each.call not in numbers:
                continue
            if each.answer >= 1_000_000:
                self.assertNotIn("row_means", each.written, each.name)
                continue
            model = calculator.read_model(each.given["file"])
            levels = each.written.get("levels", [each.answer])
            self.assertEqual(each.written["row_means"], [max(levels) * model.M * model.R], each.name)
            self.assertEqual(levels, sorted(levels), each.name)
            for T, N in zip(each.given.get("times", [model.T]), levels):
                self.assertLessEqual(N, 2 * (model.E * T // 10**6) + 51, each.name)
            numbers[each.call] += each.written["row_means"]
        for call, given in numbers.items():
            self.assertLessEqual({1, 12, 16, 255, 256, 65_536}, set(given), call)
        self.assertEqual(max(numbers["calculate"]), 358 * 64 * 8)

    def test_versions(self):
        """Of each call that reads either version, files of both are accepted; of the converter those of one."""
        for call, versions in inputs.VERSIONS.items():
            accepted = {each.given["file"][2] for each in run_calls.stored()
                        if each.call == call and each.answer < 1_000_000}
            self.assertEqual(accepted, set(versions), call)


class StoredSheets(unittest.TestCase):
    """The start lines of version 2, held against the others by hand: weight times figure, over a million."""

    def test_start_lines(self):
        seen = 0
        for name in run.names():
            file, sheet = run.stored(name + ".model"), run.stored(name + ".sheet").decode("ascii").splitlines()
            starts = [line.split() for line in sheet if line.startswith("start ")]
            if not sheet[0].startswith("level ") or file[2] != 2:
                self.assertEqual(starts, [], name)
                continue
            M, R = file[3], file[4]
            weights = [int.from_bytes(file[13 + 4 * k:17 + 4 * k], "big") for k in range(M)]
            ticks = [int(line.split()[2].replace(".", "")) for line in sheet[1:]]
            self.assertEqual((sum(weights), len(ticks)), (10**6, (M + 1) * R), name)
            self.assertEqual([line.split()[:2] for line in sheet[-R:]], [["start", f"{r + 1}"] for r in range(R)], name)
            for r in range(R):
                exact = sum(weight * ticks[k * R + r] for k, weight in enumerate(weights))
                self.assertTrue(0 <= exact - 10**6 * ticks[M * R + r] < 10**6, name)
            seen += 1
        self.assertGreater(seen, 80)


if __name__ == "__main__":
    unittest.main()
