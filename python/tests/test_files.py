"""Files are whole or as they were, and none that is read is written."""

import os
import shlex
import shutil
import stat
import subprocess
import sys
import threading
from typing import Dict, Tuple
from unittest import mock

from ltd_study.desk.whole_files import whole_file, write_whole

from .support import LTD, PORTFOLIO, DeskTest, commands, with_option

WINDOW_WORDS = ("--window", "2010-03-01", "2014-12-31")


class WholeFiles(DeskTest):
    """Written under a temporary name, and renamed when whole."""

    def test_a_new_file(self) -> None:
        path = self.folder / "x"
        with whole_file(path) as out:
            out.write(b"new")
            self.assertFalse(path.exists())
        self.assertEqual((path.read_bytes(), self.names()), (b"new", ["x"]))
        mask = os.umask(0)
        os.umask(mask)
        self.assertEqual(stat.S_IMODE(path.stat().st_mode), 0o666 & ~mask)

    def test_an_older_file_stays_until_then(self) -> None:
        path = self.file("x", "old")
        path.chmod(0o640)
        with self.assertRaises(KeyboardInterrupt), whole_file(path) as out:
            out.write(b"half")
            raise KeyboardInterrupt
        self.assertEqual((path.read_text(), self.names()), ("old", ["x"]))
        write_whole(path, b"new")
        self.assertEqual((path.read_text(), self.names(), stat.S_IMODE(path.stat().st_mode)), ("new", ["x"], 0o640))

    def test_a_signal_as_the_file_is_made(self) -> None:
        """Between making the temporary file and handing it on, wherever the signal comes."""
        made = os.open

        def ended(*words: object) -> int:
            os.close(made(*words))  # type: ignore[arg-type]
            raise SystemExit(143)

        with self.assertRaises(SystemExit), mock.patch.object(os, "open", ended):
            write_whole(self.folder / "x", b"new")
        self.assertEqual(self.names(), [])

    def test_a_link_stays_a_link(self) -> None:
        self.file("x", "old")
        (self.folder / "link").symlink_to("x")
        write_whole(self.folder / "link", b"new")
        self.assertTrue((self.folder / "link").is_symlink())
        self.assertEqual((self.folder / "x").read_text(), "new")

    def test_pipes_and_devices(self) -> None:
        pipe, found = self.folder / "pipe", []
        os.mkfifo(pipe)
        reader = threading.Thread(target=lambda: found.append(pipe.read_bytes()))
        reader.start()
        write_whole(pipe, b"new")
        reader.join()
        self.assertEqual(found, [b"new"])
        self.assertTrue(stat.S_ISFIFO(pipe.stat().st_mode))
        write_whole("/dev/null", b"new")
        self.assertTrue(stat.S_ISCHR(os.stat("/dev/null").st_mode))

    def test_folders(self) -> None:
        self.assertRaises(IsADirectoryError, write_whole, self.folder, b"")
        self.assertRaises(FileNotFoundError, write_whole, self.folder / "nowhere" / "x", b"")


class Inputs(DeskTest):
    """An output that is one of the inputs is refused, by whatever name, and stays as it is."""

    def setUp(self) -> None:
        super().setUp()
        self.example()
        for name in ("claims.csv", "rates.csv"):
            shutil.copy(PORTFOLIO / name, self.folder / name)
        for name in ("claims", "affiliate"):
            self.file(f"{name}.json", self.ltd("study", f"{name}.claims", "rates.bin", "--json").out)
        self.file("region.csv", "region\n" + "north\n" * 47)
        self.before = {name: (self.folder / name).read_bytes() for name in self.names()}

    def refused(self, words: Tuple[object, ...], output: str, read: str) -> None:
        """The command is refused, and every file is as it was."""
        ended = self.ltd(*words, status=2)
        said = f"ltd: '{output}' is the input '{read}' itself: it would be destroyed, and nothing is written there\n"
        self.assertTrue(ended.err.endswith(said), ended.err)
        self.assertEqual(ended.out, "")
        self.assertEqual({name: (self.folder / name).read_bytes() for name in self.before}, self.before)

    def test_every_command(self) -> None:
        study, years = ("study", "claims.claims", "rates.bin"), ("years", "claims.claims", "rates.bin")
        for words, output in (
            (("pack", "claims.csv", "claims.csv", *WINDOW_WORDS), "claims.csv"),
            (("unpack", "claims.claims", "--out", "claims.claims"), "claims.claims"),
            (("rates", "pack", "rates.csv", "rates.csv"), "rates.csv"),
            (("rates", "unpack", "rates.bin", "--out", "rates.bin"), "rates.bin"),
            ((*study, "--html", "claims.claims"), "claims.claims"),
            ((*study, "--html", "rates.bin"), "rates.bin"),
            ((*study, "--by", "region.csv", "--html", "region.csv"), "region.csv"),
            ((*years, "--html", "rates.bin"), "rates.bin"),
            ((*years, "--closings", "claims.claims"), "claims.claims"),
            (("pool", "claims.json", "affiliate.json", "--html", "affiliate.json"), "affiliate.json"),
        ):
            self.refused(words, output, output)
        self.assertEqual(self.names(), sorted(self.before))

    def test_other_names_of_a_file(self) -> None:
        os.link(self.folder / "claims.csv", self.folder / "hard.csv")
        (self.folder / "soft.csv").symlink_to("claims.csv")
        (self.folder / "sub").mkdir()
        for output in ("hard.csv", "soft.csv", "sub/../claims.csv", str(self.folder / "claims.csv")):
            self.refused(("pack", "claims.csv", output, *WINDOW_WORDS), output, "claims.csv")
            self.refused(("pack", output, "claims.csv", *WINDOW_WORDS), "claims.csv", output)

    def test_standard_output_and_input(self) -> None:
        ltd = f"{shlex.quote(sys.executable)} {shlex.quote(str(LTD))}"
        for line, said in (
            ("study claims.claims rates.bin >> claims.claims", "standard output is the input 'claims.claims' itself"),
            ("study claims.claims rates.bin --json >> rates.bin", "standard output is the input 'rates.bin' itself"),
            ("pack /dev/stdin claims.csv --window 2010-03-01 2014-12-31 < claims.csv", "'claims.csv' is the input '/dev/stdin' itself"),
        ):
            run = subprocess.run(["sh", "-c", f"{ltd} {line}"], cwd=self.folder, capture_output=True, text=True, check=False)
            self.assertEqual(run.returncode, 2, run)
            self.assertIn(said, run.stderr)
        self.assertEqual({name: (self.folder / name).read_bytes() for name in self.before}, self.before)

    def test_what_was_read_before_may_be_written(self) -> None:
        self.ltd("unpack", "claims.claims", "--out", "again.csv")
        self.ltd("pack", "again.csv", "claims.claims", *WINDOW_WORDS)
        self.assertEqual((self.folder / "claims.claims").read_bytes(), self.before["claims.claims"])


class Outputs(DeskTest):
    """Two outputs of a command that are one file are refused by name, before anything is written."""

    def setUp(self) -> None:
        super().setUp()
        self.example()
        shutil.copy(PORTFOLIO / "claims.csv", self.folder / "in.csv")
        self.ltd("map", "in.csv", "--out", "m.toml")
        self.ltd("rates", "unpack", "rates.bin", "--decimal", "--out", "rates.csv")
        self.file("s.json", self.ltd("study", "claims.claims", "rates.bin", "--json").out)

    def state(self) -> Dict[str, bytes]:
        """What every file holds."""
        return {name: (self.folder / name).read_bytes() for name in self.names() if (self.folder / name).is_file()}

    def refused(self, first: str, second: str, *words: object) -> None:
        """The command is refused, and every file is as it was."""
        before = self.state()
        ended = self.ltd(*words, status=2)
        self.assertEqual(ended.err, f"ltd: '{first}' and '{second}' are one file: one output would destroy the other, and nothing is written\n")
        self.assertEqual((ended.out, self.state()), ("", before))

    def test_every_output_is_known(self) -> None:
        inputs = {"claims", "rates", "map", "by", "made_from", "files", "studies", "study", "open", "among", "t_of", "new_of", "old_of"}
        no_files = {"title", "carrier", "delimiter", "encoding", "html", "closings", "out"}
        for name, found in commands().items():
            texts = {action.dest for action in found._actions if action.nargs != 0 and action.type is None}
            self.assertLessEqual(texts, inputs | no_files, f"'{name}' has a file that these tests don't know")

    def test_page_and_closings(self) -> None:
        (self.folder / "sub").mkdir()
        (self.folder / "link").symlink_to("sub")
        self.file("there", "old")
        os.link(self.folder / "there", self.folder / "hard")
        (self.folder / "soft").symlink_to("there")
        (self.folder / "dangling").symlink_to("nowhere")
        for first, second in (
            ("F", "F"),
            ("F", "sub/../F"),
            ("sub/F", "link/F"),
            ("there", "there"),
            ("there", "hard"),
            ("hard", "soft"),
            ("nowhere", "dangling"),
            ("F", str(self.folder / "F")),
        ):
            self.refused(second, first, "years", "claims.claims", "rates.bin", "--html", first, "--closings", second)
            self.refused(first, second, "years", "claims.claims", "rates.bin", "--closings", first, "--html", second)

    def test_two_that_differ(self) -> None:
        for name in ("a", "b"):
            self.file(name, "the same")
        self.ltd("years", "claims.claims", "rates.bin", "--html", "a", "--closings", "b")
        self.assertTrue((self.folder / "a").read_text().startswith("<!DOCTYPE html>"))
        self.assertTrue((self.folder / "b").read_text().startswith("block,place,"))
        self.ltd("years", "claims.claims", "rates.bin", "--html", "/dev/null", "--closings", "/dev/null")

    def test_nothing_is_written_where_one_is_refused(self) -> None:
        before = self.state()
        for page in ("rates.bin", "."):
            self.ltd("years", "claims.claims", "rates.bin", "--html", page, "--closings", "c.csv", status=2)
            self.ltd("years", "claims.claims", "rates.bin", "--closings", page, "--html", "c.html", status=2)
        self.assertEqual(self.state(), before)

    def test_standard_output(self) -> None:
        claims = "claims.claims rates.bin"
        lines = {
            "study": claims,
            "years": claims,
            "durations": claims,
            "pool": "s.json",
            "total": "s.json",
            "withdraw": f"s.json {shlex.quote(str(PORTFOLIO / 'mistaken.csv'))} rates.bin",
        }
        self.assertEqual(with_option("--html"), set(lines))
        words = [f"{command} {files} --html out" for command, files in lines.items()]
        words += [f"years {claims} --closings out --csv", f"pack in.csv out {' '.join(WINDOW_WORDS)}", "rates pack rates.csv out --decimal"]
        for line in words:
            for to in (">", ">>"):
                self.file("out", "old")
                self.on_one_file(f"{line} {to} out", "'out'")
        self.on_one_file(f"study {claims} --html /dev/stdout | cat", "'/dev/stdout'")
        self.on_one_file(f"pack in.csv /dev/stdout {' '.join(WINDOW_WORDS)} | cat", "'/dev/stdout'")
        self.assertNotIn("out.how.toml", self.names())

    def on_one_file(self, line: str, name: str) -> None:
        """What is said; nothing is printed, and no file is another, but for what the shell cut."""
        before = {**self.state(), "out": b""}
        run = subprocess.run(["sh", "-c", f"{shlex.quote(sys.executable)} {shlex.quote(str(LTD))} {line}"], cwd=self.folder, capture_output=True, text=True, check=False)
        self.assertEqual(run.stderr, f"ltd: {name} and standard output are one file: one output would destroy the other, and nothing is written\n", line)
        self.assertEqual((run.stdout, {**self.state(), "out": b""}), ("", before))
        if "|" not in line:
            self.assertEqual((run.returncode, (self.folder / "out").read_text()), (2, "old" if ">>" in line else ""))

    def test_devices(self) -> None:
        line = f"{shlex.quote(sys.executable)} {shlex.quote(str(LTD))} study claims.claims rates.bin --html /dev/null > /dev/null 2>&1"
        subprocess.run(["sh", "-c", line], cwd=self.folder, check=True)

    def test_side_files(self) -> None:
        pack, rates = ("pack", "in.csv", "x", *WINDOW_WORDS), ("rates", "pack", "rates.csv", "x", "--decimal", "--round", "--extend-last")
        for name, words in (("how.toml", pack), ("map.toml", (*pack, "--map", "m.toml")), ("lines.csv", (*pack, "--map", "m.toml"))):
            (self.folder / f"x.{name}").symlink_to("x")
            self.refused(f"x.{name}", "x", *words)
            (self.folder / f"x.{name}").unlink()
        (self.folder / "x.lines.csv").symlink_to("x.map.toml")
        self.refused("x.lines.csv", "x.map.toml", *pack, "--map", "m.toml")
        (self.folder / "x.lines.csv").unlink()
        rows = (self.folder / "rates.csv").read_text().splitlines()
        self.file("rates.csv", "\n".join(row for row in rows if ",480," not in row))
        (self.folder / "x.how.toml").symlink_to("x")
        self.refused("x.how.toml", "x", *rates)


class WriteErrors(DeskTest):
    """They name the file that the user named."""

    def setUp(self) -> None:
        super().setUp()
        self.example()

    def test_a_folder_that_is_not_there(self) -> None:
        ended = self.ltd("study", "claims.claims", "rates.bin", "--html", "no/where.html", status=2)
        self.assertTrue(ended.err.endswith("ltd: 'no/where.html': No such file or directory\n"), ended.err)
        ended = self.ltd("study", "claims.claims", "rates.bin", "--html", "rates.bin/x.html", status=2)
        self.assertTrue(ended.err.endswith("ltd: 'rates.bin/x.html': Not a directory\n"), ended.err)

    def test_a_full_disk(self) -> None:
        ended = self.ltd("study", "claims.claims", "rates.bin", "--html", "/dev/full", status=2)
        self.assertTrue(ended.err.endswith("ltd: '/dev/full': No space left on device\n"), ended.err)
        before = self.names()
        for words, name in (
            (f"pack {shlex.quote(str(PORTFOLIO / 'claims.csv'))} x.claims {' '.join(WINDOW_WORDS)}", "x.claims"),
            ("unpack claims.claims --out x.csv", "x.csv"),
            ("study claims.claims rates.bin --html x.html", "x.html"),
        ):
            # A file may have no byte at all.
            line = f"ulimit -f 0; exec {shlex.quote(sys.executable)} {shlex.quote(str(LTD))} {words}"
            run = subprocess.run(["sh", "-c", line], cwd=self.folder, capture_output=True, text=True, check=False)
            self.assertEqual((run.returncode, run.stderr.splitlines()[-1]), (2, f"ltd: '{name}': File too large"))
        self.assertEqual(self.names(), before)
