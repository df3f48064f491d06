"""Where the calls come from: a shared object that is named, or linked from the static library on first use."""

import os
import shutil
import subprocess
import sys
import time
from pathlib import Path
from unittest import mock

from ltd_study import library
from ltd_study.library import NoLibrary, linked, load

from .support import DeskTest


class Linking(DeskTest):
    """A small static library with all the names stands in for the engine's."""

    version = 65536

    def setUp(self) -> None:
        super().setUp()
        self.static, self.shared = self.folder / "staticlib", self.folder / "desk"
        self.static.mkdir()
        self.archive(list(library._CALLS))

    def archive(self, calls: "list[str]", answer: int = 7) -> None:
        """A static library whose calls all answer the same, but for its version, and that has a name of its own."""
        source, made = self.folder / "calls.c", self.folder / "calls.o"
        answers = {call: self.version if call == "ltd_version" else answer for call in calls}
        source.write_text("".join(f"unsigned {call}(void) {{ return {number}; }}\n" for call, number in answers.items()) + "int inner;\n")
        subprocess.run(["cc", "-c", "-fPIC", "-o", str(made), str(source)], check=True)
        (self.static / "libc_abi.a").unlink(missing_ok=True)
        subprocess.run(["ar", "rcs", str(self.static / "libc_abi.a"), str(made)], check=True)

    def test_linked_once_and_again_when_older(self) -> None:
        path = linked(self.static, self.shared)
        self.assertEqual(load(path).ltd_prepare(None, 0), 7)
        self.assertEqual(os.listdir(self.shared), ["libltd_study.so"])
        with mock.patch.object(library, "_link") as again:
            linked(self.static, self.shared)
            again.assert_not_called()
            later = time.time() + 60
            os.utime(self.static / "libc_abi.a", (later, later))
            linked(self.static, self.shared)
            again.assert_called_once()

    def test_only_the_calls_are_exported(self) -> None:
        path = linked(self.static, self.shared)
        self.assertFalse(hasattr(load(path), "inner"))
        self.assertIn(b"libltd_study.so.1\0", path.read_bytes())

    def test_another_major_version(self) -> None:
        self.version = 2 * 65536 + 256 + 3
        self.archive(list(library._CALLS))
        self.assertRaisesRegex(NoLibrary, r"is version 2\.1\.3 of the engine, and this module is version 1\.", load, linked(self.static, self.shared))

    def test_built_on_first_use(self) -> None:
        kept = self.static.rename(self.folder / "kept")
        asked = []

        def build() -> None:
            asked.append(1)
            shutil.copytree(kept, self.static)

        for _ in range(2):
            self.assertEqual(linked(self.static, self.shared, build), self.shared / "libltd_study.so")
        self.assertEqual(asked, [1])

    def test_a_build_that_fails(self) -> None:
        (self.static / "libc_abi.a").unlink()
        self.assertRaisesRegex(NoLibrary, "the engine isn't built", linked, self.static, self.shared, lambda: None)

    def test_the_library_of_a_release(self) -> None:
        inside, beside = self.folder / "python" / "ltd_study", self.folder / "lib"
        for folder in (inside, beside):
            folder.mkdir(parents=True)
        with mock.patch.object(library, "HERE", inside), mock.patch.object(library, "ROOT", self.folder), mock.patch.dict(os.environ):
            os.environ.pop("LTD_STUDY_LIBRARY", None)
            self.assertRaises(NoLibrary, library.path_in_use)
            for folder in (inside, beside):
                (folder / "libltd_study.so").touch()
                self.assertEqual(library.path_in_use(), folder / "libltd_study.so")
            os.environ["LTD_STUDY_LIBRARY"] = "named.so"
            self.assertEqual(library.path_in_use(), Path("named.so"))

    def test_missing_static_library(self) -> None:
        (self.static / "libc_abi.a").unlink()
        with self.assertRaises(NoLibrary) as caught:
            linked(self.static, self.shared)
        for wanted in ("libc_abi.a", "scripts/build-calls", "LTD_STUDY_LIBRARY"):
            self.assertIn(wanted, str(caught.exception))

    def test_no_compiler(self) -> None:
        with mock.patch.dict(os.environ, {"PATH": str(self.folder)}):
            self.assertRaisesRegex(NoLibrary, "C compiler 'cc', and there is none on the path", linked, self.static, self.shared)

    def test_a_library_that_doesnt_link(self) -> None:
        (self.static / "libc_abi.a").write_text("no archive")
        self.assertRaisesRegex(NoLibrary, "'cc' couldn't link the engine's static library", linked, self.static, self.shared)
        self.assertEqual(os.listdir(self.shared), [])

    def test_an_engine_of_another_version(self) -> None:
        self.archive([name for name in library._CALLS if name != "ltd_prepared_file_study"])
        path = linked(self.static, self.shared)
        self.assertRaisesRegex(NoLibrary, "has no ltd_prepared_file_study: it isn't the engine of this version", load, path)

    def test_a_name_that_is_no_library(self) -> None:
        self.assertRaisesRegex(NoLibrary, "can't be loaded", load, Path(__file__))
        self.assertRaisesRegex(NoLibrary, "can't be loaded", load, self.folder / "nowhere")

    def test_the_command_says_what_to_do(self) -> None:
        self.file("x.csv", "number\n")
        ended = self.process("pack", "x.csv", "x.claims", "--window", "2010-01-01", "2010-12-31", status=2, env={"LTD_STUDY_LIBRARY": "nowhere"})
        self.assertRegex(ended.err, r"^ltd: the engine's shared object 'nowhere' can't be loaded: ")
        copy = self.folder / "copy"
        shutil.copytree(library.ROOT / "python" / "ltd_study", copy / "python" / "ltd_study", ignore=shutil.ignore_patterns("__pycache__"))
        shutil.copy(library.ROOT / "python" / "ltd.py", copy / "python" / "ltd.py")
        kept = {name: value for name, value in os.environ.items() if name != "LTD_STUDY_LIBRARY"}
        words = [sys.executable, str(copy / "python" / "ltd.py"), "pack", "x.csv", "x.claims", "--window", "2010-01-01", "2010-12-31"]
        run = subprocess.run(words, cwd=self.folder, env=kept, capture_output=True, text=True, check=False)
        self.assertEqual(run.returncode, 2)
        self.assertIn(f"Run '{copy.resolve()}/scripts/build-calls'", run.stderr)
        self.assertTrue(subprocess.run([sys.executable, str(copy / "python" / "ltd.py"), "--help"], env=kept, capture_output=True, check=True).stdout)
