"""./ltd as a user runs it: help, exit status, what it says, progress, and the README's commands."""

import fcntl
import os
import pty
import re
import shlex
import shutil
import signal
import subprocess
import sys
import termios
import time
from array import array
from contextlib import contextmanager
from pathlib import Path
from typing import Iterator

from ltd_study.desk.command import parser

from .support import LTD, PORTFOLIO, ROOT, DeskTest, commands

COMMANDS = ("rates", *commands())
WINDOW_WORDS = ("--window", "2010-03-01", "2014-12-31")
ENDED = ((signal.SIGTERM, 143), (signal.SIGINT, 130), (signal.SIGHUP, 129))

HEARD_ASIDE = """
import os, runpy, signal, sys, threading

def hear(path):
    number = int(os.read(0, 9))
    signal.pthread_kill(threading.get_ident(), number)
    with open(path, "wb", buffering=0) as more:
        more.write(b"\\n")

threading.Thread(target=hear, args=sys.argv[3:4], daemon=True).start()
del sys.argv[0]
runpy.run_path(sys.argv[0], run_name="__main__")
"""
"""Runs ./ltd. The signal whose number is read is taken by another thread, and behind it comes more of the pipe that ./ltd reads. So the read is not broken off,
as by a signal that comes together with data."""


def listening() -> None:
    """In a started command: no signal is ignored, as one is where the tests run in the background or under nohup."""
    for number in (signal.SIGINT, signal.SIGTERM, signal.SIGHUP):
        signal.signal(number, signal.SIG_DFL)


class Help(DeskTest):
    """Each command explains itself, and its example runs."""

    def test_every_command_has_an_example_that_can_be_read(self) -> None:
        for command in COMMANDS:
            text = self.ltd(*command.split(), "--help").out
            examples = re.findall(r"^example:\n  (\./ltd .*)$", text, re.M)
            self.assertEqual(len(examples), 1, text)
            words = shlex.split(examples[0].split(" > ")[0])[1:]
            asked = parser().parse_args(words)
            self.assertIn("Exit status: 0 done; 1 the data is refused; 2 wrong use", text)
            self.assertEqual(words[: len(command.split())], command.split())
            self.assertTrue(callable(asked.run))

    def test_the_first_page(self) -> None:
        text = self.ltd("--help").out
        for command in COMMANDS:
            self.assertRegex(text, rf"\n    {command.split()[0]}\s")

    def test_the_limit_of_a_pool_is_documented(self) -> None:
        self.assertIn("500,000 claims together at most", self.ltd("pool", "--help").out)

    def test_the_columns_are_documented(self) -> None:
        text = self.ltd("pack", "--help").out
        for column in ("number", "disability", "bcd", "termination", "maximum", "status", "code", "cell", "benefit"):
            self.assertRegex(text, rf"\n  {column} +\w")


class Endings(DeskTest):
    """Exit status 0, 1 and 2, and nothing but words."""

    def test_wrong_use(self) -> None:
        for words in ([], ["fly"], ["study"], ["study", "a"], ["study", "a", "b", "--json", "--csv"], ["rates"], ["months", "a", "1"], ["pool"]):
            ended = self.ltd(*words, status=2)
            self.assertTrue(ended.err.startswith("usage: ltd"), ended)
            self.assertEqual(ended.out, "")

    def test_files_that_are_not_there(self) -> None:
        self.file("x", "")
        for words, message in (
            (("study", "nowhere", "x"), "there is no claim file 'nowhere'"),
            (("study", "x", "nowhere"), "there is no rate table 'nowhere'"),
            (("study", ".", "x"), "the claim file '.' is a folder"),
            (("check", "nowhere", "x"), "there is no claim file 'nowhere'"),
            (("years", "nowhere", "x"), "there is no claim file 'nowhere'"),
            (("months", "nowhere", 1, 1), "there is no claim file 'nowhere'"),
            (("unpack", "nowhere"), "there is no claim file 'nowhere'"),
            (("pool", "nowhere"), "there is no saved study 'nowhere'"),
            (("map", "nowhere"), "there is no CSV file 'nowhere'"),
            (("rates", "unpack", "nowhere"), "there is no rate table 'nowhere'"),
            (("rates", "pack", "nowhere", "y"), "there is no CSV file 'nowhere'"),
            (("pack", "nowhere", "y", *WINDOW_WORDS), "there is no CSV file 'nowhere'"),
            (("pack", PORTFOLIO / "claims.csv", "no/where", *WINDOW_WORDS), "'no/where': No such file or directory"),
            (("pack", PORTFOLIO / "claims.csv", ".", *WINDOW_WORDS), "'.' is a folder"),
        ):
            ended = self.ltd(*words, status=2)
            self.assertIn(message, ended.err)
            self.assertEqual((len(ended.err.splitlines()), ended.out, self.names()), (1, "", ["x"]))

    def test_a_faulty_file_is_not_unpacked(self) -> None:
        self.example()
        data = bytearray((self.folder / "claims.claims").read_bytes())
        data[2000] ^= 1
        self.file("x", bytes(data))
        for more in ((), ("--out", "y.csv")):
            ended = self.ltd("unpack", "x", *more, status=1)
            self.assertEqual((ended.out, ended.err), ("", "ltd: 'x': refused 11 (block) at block 3\n"))
        self.assertFalse((self.folder / "y.csv").exists())

    def test_outputs_cut_short(self) -> None:
        self.example()
        for words in (["study", "claims.claims", "rates.bin"], ["unpack", "claims.claims"], ["--help"], ["study", "--help"]):
            with open("/dev/full", "wb") as full:
                run = subprocess.run([sys.executable, str(LTD), *words], cwd=self.folder, stdout=full, stderr=subprocess.PIPE, check=False)
            self.assertEqual((run.returncode, run.stderr.decode().splitlines()[-1]), (2, "ltd: the output was cut short"))
            closed = f"exec {shlex.quote(sys.executable)} {shlex.quote(str(LTD))} {shlex.join(words)} >&-"
            run = subprocess.run(["sh", "-c", closed], cwd=self.folder, stderr=subprocess.PIPE, check=False)
            self.assertEqual((run.returncode, run.stderr.decode().splitlines()[-1]), (2, "ltd: the output was cut short"))
        deaf = f"exec {shlex.quote(sys.executable)} {shlex.quote(str(LTD))} study nowhere rates.bin 2>&-"
        self.assertEqual(subprocess.run(["sh", "-c", deaf], cwd=self.folder, check=False).returncode, 2)

    def test_claims_through_pipes(self) -> None:
        self.example()
        want = self.ltd("study", "claims.claims", "rates.bin").out
        words = f"cat claims.claims | {shlex.quote(sys.executable)} {shlex.quote(str(LTD))} study /dev/stdin rates.bin"
        run = subprocess.run(["sh", "-c", words], cwd=self.folder, capture_output=True, text=True, check=True)
        self.assertEqual(run.stdout, want)
        rows = (PORTFOLIO / "claims.csv").read_text().splitlines()
        self.file("many.csv", "\n".join([rows[0], *rows[1:] * 200]))
        self.ltd("pack", "many.csv", "many.claims", *WINDOW_WORDS)
        words = f"cat many.csv | {shlex.quote(sys.executable)} {shlex.quote(str(LTD))}"
        subprocess.run(["sh", "-c", f"{words} pack /dev/stdin y {' '.join(WINDOW_WORDS)}"], cwd=self.folder, stdout=subprocess.DEVNULL, check=True)
        self.assertEqual((self.folder / "y").read_bytes(), (self.folder / "many.claims").read_bytes())

    def test_an_ended_command_leaves_nothing(self) -> None:
        os.mkfifo(self.folder / "slow.csv")
        words = [sys.executable, str(LTD), "pack", "slow.csv", "x.claims", *WINDOW_WORDS]
        for number, status in ENDED:
            run = subprocess.Popen(words, cwd=self.folder, stderr=subprocess.PIPE, preexec_fn=listening)
            with open(self.folder / "slow.csv", "w", encoding="utf-8") as slow:
                slow.write((PORTFOLIO / "claims.csv").read_text())
                slow.flush()
                self.wait_for_part()
                run.send_signal(number)
                self.assertEqual(run.wait(timeout=30), status)
            assert run.stderr is not None
            self.assertEqual(run.stderr.read(), b"")
            run.stderr.close()
            self.assertEqual(self.names(), ["slow.csv"])

    def test_a_signal_that_comes_with_more_of_an_open_pipe(self) -> None:
        words = [sys.executable, "-c", HEARD_ASIDE, str(LTD), "pack", "slow.csv", "x.claims", *WINDOW_WORDS]
        for number, status in ENDED:
            with subprocess.Popen(words, cwd=self.folder, stdin=subprocess.PIPE, stderr=subprocess.PIPE, preexec_fn=listening) as run:
                assert run.stdin is not None and run.stderr is not None
                with self.open_pipe() as pipe:
                    os.write(pipe, (PORTFOLIO / "claims.csv").read_bytes())
                    self.wait_until_read(pipe)
                    run.stdin.write(b"%d" % number)
                    run.stdin.flush()
                    self.assertEqual(run.wait(timeout=30), status)
                self.assertEqual(run.stderr.read(), b"")
            self.assertEqual(self.names(), ["slow.csv"])

    def test_a_header_is_refused_while_its_pipe_is_open(self) -> None:
        words = [sys.executable, str(LTD), "pack", "slow.csv", "x.claims", *WINDOW_WORDS]
        with subprocess.Popen(words, cwd=self.folder, stderr=subprocess.PIPE) as run:
            assert run.stderr is not None
            with self.open_pipe() as pipe:
                os.write(pipe, b"foo,bar\n1,2\n")
                self.assertEqual(run.wait(timeout=30), 1)
            self.assertIn(b"line 1: no such column: 'foo'", run.stderr.read())
        self.assertEqual(self.names(), ["slow.csv"])

    def test_a_signal_that_is_ignored_stays_so(self) -> None:
        os.mkfifo(self.folder / "slow.csv")
        words = [sys.executable, str(LTD), "pack", "slow.csv", "x.claims", *WINDOW_WORDS]
        run = subprocess.Popen(["nohup", *words], cwd=self.folder, stdin=subprocess.DEVNULL, stdout=subprocess.DEVNULL, stderr=subprocess.DEVNULL)
        with open(self.folder / "slow.csv", "w", encoding="utf-8") as slow:
            slow.write((PORTFOLIO / "claims.csv").read_text())
            slow.flush()
            self.wait_for_part()
            run.send_signal(signal.SIGHUP)
        self.assertEqual(run.wait(timeout=30), 0)
        self.assertEqual(self.names(), ["slow.csv", "x.claims", "x.claims.how.toml"])

    def test_an_interrupt_at_the_start(self) -> None:
        package = self.folder / "python" / "ltd_study"
        package.mkdir(parents=True)
        # In place of the package, one that is a long time in loading.
        (package / "__init__.py").write_text("print('loading', flush=True)\nimport time\ntime.sleep(60)\n")
        shutil.copy(LTD, package.parent)
        words = [sys.executable, str(package.parent / LTD.name)]
        with subprocess.Popen(words, stdout=subprocess.PIPE, stderr=subprocess.PIPE, preexec_fn=listening) as run:
            assert run.stdout is not None and run.stderr is not None
            self.assertEqual(run.stdout.readline(), b"loading\n")
            run.send_signal(signal.SIGINT)
            self.assertEqual(run.wait(timeout=30), -signal.SIGINT)
            self.assertEqual(run.stderr.read(), b"")

    @contextmanager
    def open_pipe(self) -> Iterator[int]:
        """slow.csv, a pipe that stays open; whoever reads it is at its end after that."""
        path = self.folder / "slow.csv"
        if not path.exists():
            os.mkfifo(path)
        pipe = os.open(path, os.O_RDWR)
        try:
            yield pipe
        finally:
            os.close(pipe)

    def wait_until_read(self, pipe: int) -> None:
        """Until nothing is left in a pipe, thirty seconds at most."""
        left = array("i", [0])
        for _ in range(600):
            fcntl.ioctl(pipe, termios.FIONREAD, left)
            if left[0] == 0:
                return
            time.sleep(0.05)
        self.fail("the pipe was not read")

    def wait_for_part(self) -> None:
        """Until the temporary file is there, ten seconds at most."""
        for _ in range(200):
            if len(self.names()) > 1:
                return
            time.sleep(0.05)
        self.fail("no temporary file came")


class ProgressBar(DeskTest):
    """On standard error, and only where that is a terminal."""

    def seen_on_a_terminal(self, *words: str) -> str:
        """What a command writes to a terminal as its standard error."""
        ours, theirs = pty.openpty()
        with subprocess.Popen([sys.executable, str(LTD), *words], cwd=self.folder, stdout=subprocess.DEVNULL, stderr=theirs) as run:
            os.close(theirs)
            seen = b""
            while True:
                try:
                    piece = os.read(ours, 4096)
                except OSError:
                    break
                if not piece:
                    break
                seen += piece
        os.close(ours)
        self.assertEqual(run.returncode, 0)
        return seen.decode()

    def test_a_terminal_and_a_file(self) -> None:
        self.example()
        rows = (PORTFOLIO / "affiliate.csv").read_text().splitlines()
        self.file("many.csv", "\n".join([rows[0], *rows[1:] * 1500]))
        seen = self.seen_on_a_terminal("pack", "many.csv", "many.claims", *WINDOW_WORDS)
        self.assertRegex(seen, r"\rpacking \[#*\.*\] +\d+ %")
        self.assertTrue(re.search(r"\r +\rltd: note: 14 claim numbers stand more than once \(.*\), and every record counts; .*\r\n$", seen), seen)
        self.assertIn("checking [", self.seen_on_a_terminal("check", "many.claims", "rates.bin"))
        self.assertIn("studying the parts [", self.seen_on_a_terminal("years", "many.claims", "rates.bin"))
        self.assertTrue(self.process("check", "many.claims", "rates.bin").err.startswith("ltd: note: 14 claim numbers stand more than once"))


class Readme(DeskTest):
    """Every command of README.md and docs/USING.md runs on the made-up portfolio, and gives what it says."""

    def setUp(self) -> None:
        super().setUp()
        for name in ("portfolio", "extracts"):
            shutil.copytree(ROOT / "examples" / name, self.folder / "examples" / name)
        (self.folder / "out").mkdir()

    def run_commands(self, path: Path) -> "list[str]":
        """Runs the lines of a document that run ltd; answers their first words."""
        commands = re.findall(r"^ {4}(?:\./|bin/)ltd (.*?)(?: +#.*)?$", path.read_text(encoding="utf-8"), re.M)
        for command in commands:
            expected = 1 if "faulty" in command and command.startswith("check ") else 0
            line = f"{shlex.quote(sys.executable)} {shlex.quote(str(LTD))} {command}"
            run = subprocess.run(["sh", "-c", line], cwd=self.folder, capture_output=True, text=True, timeout=60, check=False)
            self.assertEqual(run.returncode, expected, (command, run.stdout, run.stderr))
        return [shlex.split(command)[0] for command in commands]

    def test_the_first_screen(self) -> None:
        self.assertEqual(self.run_commands(ROOT / "README.md"), ["pack", "rates", "study"])
        self.assertIn("<!DOCTYPE html>", (self.folder / "out" / "study.html").read_text(encoding="utf-8"))
        self.assertEqual(self.names(), ["examples", "out"])

    def test_all_commands(self) -> None:
        words = set(self.run_commands(ROOT / "docs" / "USING.md"))
        self.assertEqual({command.split()[0] for command in COMMANDS}, words - {"--version"})
        self.assertEqual(self.names(), ["examples", "out"])

    def test_the_stored_study(self) -> None:
        self.run_commands(ROOT / "README.md")
        found = self.ltd("study", "out/portfolio.claims", "out/portfolio.rates", "--csv").out
        self.assertEqual(found, (PORTFOLIO / "study.csv").read_text(encoding="utf-8"))

    def test_the_folder_explains_its_claims(self) -> None:
        text = (PORTFOLIO / "README.md").read_text(encoding="utf-8")
        numbers = set(re.findall(r"\*\*(\d{4})\*\*", text))
        rows = (PORTFOLIO / "claims.csv").read_text().splitlines()
        self.assertTrue(numbers and all(any(row.startswith(f"{number},") for row in rows) for number in numbers))
        for number in ("1006", "1031"):
            self.assertEqual(sum(row.startswith(f"{number},") for row in rows), 2)
