"""The CSV that a claim file was packed from: kept with its hash beside the claim file, told by every page, and held against --made-from."""

import hashlib
import io
import json
import os
import random
import shlex
import subprocess
import sys
import threading
import tomllib
from typing import Any, Dict, List, Tuple

from ltd_study import Claim
from ltd_study.claim import COLUMNS
from ltd_study.desk.side_files import HashedReader, made

from .support import LTD, PORTFOLIO, WINDOW, DeskTest, any_rates, claims_csv, sound_claims
from .test_page import Page

WINDOW_WORDS = ("--window", *map(str, WINDOW))
SAME_COLUMNS = "[columns]\n" + "".join(f'{name} = "{name}"\n' for name in COLUMNS)
PAGES = (("study",), ("years",), ("durations",), ("durations", "--by-year"))


def sha256(data: "bytes | str") -> str:
    """Of bytes, or of a text's."""
    return hashlib.sha256(data.encode() if isinstance(data, str) else data).hexdigest()


class MadeFrom(DeskTest):
    """A CSV, packed."""

    def setUp(self) -> None:
        super().setUp()
        self.text = claims_csv(sound_claims(random.Random(46), 40))
        self.file("in.csv", self.text)
        self.file("m.toml", SAME_COLUMNS)
        self.file("r.bin", any_rates(random.Random(46)).to_bytes())
        self.ltd("pack", "in.csv", "x.claims", *WINDOW_WORDS)
        self.kept = f"claims: packed from in.csv, sha256 {sha256(self.text)}"

    def how(self) -> Dict[str, object]:
        """What stands beside the claim file."""
        return tomllib.loads((self.folder / "x.claims.how.toml").read_text(encoding="utf-8"))

    def footer(self, command: str = "study", *words: object) -> str:
        """What a page says, in its paragraphs."""
        self.ltd(command, "x.claims", "r.bin", "--html", "p.html", *words)
        return Page((self.folder / "p.html").read_text(encoding="utf-8")).texts["p"]


class Pieces(io.RawIOBase):
    """A pipe that has a piece at a time."""

    def __init__(self, pieces: List[bytes]) -> None:
        super().__init__()
        self.pieces = list(pieces)

    def readable(self) -> bool:
        """It is."""
        return True

    def readinto(self, buffer: Any) -> int:
        """The next piece."""
        piece = self.pieces.pop(0) if self.pieces else b""
        buffer[: len(piece)] = piece
        return len(piece)


class Kept(MadeFrom):
    """pack keeps name and hash, with a map and without."""

    def test_without_a_map(self) -> None:
        found = self.how()
        self.assertEqual((found["csv"], found["csv_sha256"], found["files"], found["map_sha256"]), ("in.csv", sha256(self.text), [], ""))
        self.assertEqual(found["sha256"], sha256((self.folder / "x.claims").read_bytes()))
        for words in PAGES:
            text = self.footer(*words)
            self.assertEqual(text.count(self.kept), 1, words)
            self.assertNotIn("claims: map", text)

    def test_with_a_map(self) -> None:
        self.ltd("pack", "in.csv", "x.claims", "--map", "m.toml", *WINDOW_WORDS)
        self.assertEqual((self.how()["csv"], self.how()["csv_sha256"]), ("in.csv", sha256(self.text)))
        for words in PAGES:
            text = self.footer(*words)
            self.assertEqual((text.count(self.kept), text.count("packed from")), (1, 1), words)
            self.assertIn(f"claims: map: x.claims.map.toml, sha256 {sha256(SAME_COLUMNS)}", text)

    def test_claims_taken_back(self) -> None:
        self.file("s.json", self.ltd("study", "x.claims", "r.bin", "--json").out)
        self.file("back.csv", "\n".join(self.text.splitlines()[:3]))
        self.ltd("pack", "back.csv", "back.claims", *WINDOW_WORDS)
        self.ltd("withdraw", "s.json", "back.claims", "r.bin", "--among", "x.claims", "--html", "w.html")
        text = Page((self.folder / "w.html").read_text(encoding="utf-8")).texts["p"]
        self.assertIn(f"claims taken back: packed from back.csv, sha256 {sha256((self.folder / 'back.csv').read_bytes())}", text)
        self.assertIn(f"among: x.claims, sha256 {sha256((self.folder / 'x.claims').read_bytes())}", text)
        self.assertIn(self.kept.replace("claims:", "among:"), text)

    def test_it_is_that_of_the_run(self) -> None:
        self.file("in.csv", self.text + "\n")
        self.assertIn(self.kept, self.footer())
        self.ltd("pack", "in.csv", "x.claims", *WINDOW_WORDS)
        self.assertIn(f"claims: packed from in.csv, sha256 {sha256(self.text + chr(10))}", self.footer())
        before = (self.folder / "x.claims.how.toml").read_bytes()
        self.file("in.csv", self.text + "x\n")
        self.ltd("pack", "in.csv", "x.claims", *WINDOW_WORDS, status=1)
        self.assertEqual((self.folder / "x.claims.how.toml").read_bytes(), before)

    def test_nothing_is_said_of_another_claim_file(self) -> None:
        self.packed([Claim(1, "2009-03-13", "2009-06-11")])
        self.assertNotIn("packed from", self.footer())

    def test_a_large_one_through_a_pipe(self) -> None:
        rows = (PORTFOLIO / "claims.csv").read_text().splitlines()
        data = "\n".join([rows[0], *rows[1:] * 300])
        self.file("many.csv", data)
        for more in ("", " --map m.toml"):
            words = f"{shlex.quote(sys.executable)} {shlex.quote(str(LTD))} pack /dev/stdin x.claims {' '.join(WINDOW_WORDS)}{more}"
            subprocess.run(["sh", "-c", f"cat many.csv | {words}"], cwd=self.folder, stdout=subprocess.DEVNULL, stderr=subprocess.DEVNULL, check=True)
            self.assertEqual((self.how()["csv"], self.how()["csv_sha256"]), ("/dev/stdin", sha256(data)))

    def test_each_piece_of_a_pipe_is_handed_on_and_hashed(self) -> None:
        pieces = [b"number,", b"x" * 900, b"\n", b"1"]
        reader = HashedReader(io.BufferedReader(Pieces(pieces)))
        self.assertEqual([reader.read(1000) for _ in range(5)], [*pieces, b""])
        self.assertEqual(reader.sha256, sha256(b"".join(pieces)))
        reader = HashedReader(io.BufferedReader(Pieces(pieces)))
        self.assertEqual((io.BufferedReader(reader).read(), reader.sha256), (b"".join(pieces), sha256(b"".join(pieces))))

    def test_odd_names(self) -> None:
        for name in (b'a"b\\c\x7f\n.csv', b"\xe9.csv", "\u00e9.csv".encode()):
            with open(os.path.join(os.fsencode(self.folder), name), "w", encoding="utf-8") as out:
                out.write(self.text)
            self.ltd("pack", os.fsdecode(name), "x.claims", *WINDOW_WORDS)
            wanted = os.fsdecode(name).encode("utf-8", "backslashreplace").decode()
            self.assertEqual((self.how()["csv"], self.how()["csv_sha256"]), (wanted, sha256(self.text)))
            self.assertIn(f"claims: packed from {wanted}, sha256 {sha256(self.text)}", self.footer())

    def test_nothing_stands_beside_a_device_or_a_pipe(self) -> None:
        before = self.names()
        self.ltd("pack", "in.csv", "/dev/null", *WINDOW_WORDS)
        os.mkfifo(self.folder / "pipe")
        reader = threading.Thread(target=(self.folder / "pipe").read_bytes)
        reader.start()
        self.ltd("pack", "in.csv", "pipe", *WINDOW_WORDS)
        reader.join()
        self.assertEqual(self.names(), sorted([*before, "pipe"]))
        self.assertFalse(os.path.exists("/dev/null.how.toml"))

    def test_what_is_read_is_not_written_over(self) -> None:
        self.ltd("pack", "in.csv", "x.claims", "--map", "m.toml", *WINDOW_WORDS)
        self.file("y.how.toml", self.text)
        before = {name: (self.folder / name).read_bytes() for name in self.names()}
        for words, name in (
            (("study", "x.claims", "r.bin", "--html", "x.claims.how.toml"), "x.claims.how.toml"),
            (("study", "x.claims", "r.bin", "--html", "x.claims.map.toml"), "x.claims.map.toml"),
            (("pack", "y.how.toml", "y", *WINDOW_WORDS), "y.how.toml"),
        ):
            said = self.ltd(*words, status=2).err
            self.assertTrue(said.endswith(f"ltd: '{name}' is the input '{name}' itself: it would be destroyed, and nothing is written there\n"), said)
            self.assertEqual({name: (self.folder / name).read_bytes() for name in self.names()}, before)

    def test_where_it_cannot_be_written_nothing_is(self) -> None:
        (self.folder / "y.how.toml").mkdir()
        before = self.names()
        long = "y" * 250
        for name, why in (("y", "'y.how.toml' is a folder"), (long, f"'{long}.how.toml': File name too long")):
            ended = self.ltd("pack", "in.csv", name, *WINDOW_WORDS, status=2)
            self.assertEqual((ended.out, ended.err, self.names()), ("", f"ltd: {why}\n", before))


class HeldAgainst(MadeFrom):
    """--made-from names what was kept, or is refused."""

    def refused(self, words: Tuple[object, ...], *named: str) -> str:
        """What is said; nothing is printed or written."""
        before = self.names()
        ended = self.ltd(*words, "x.claims", "r.bin", "--made-from", *named, status=1)
        self.assertEqual((ended.out, self.names()), ("", before))
        return ended.err.splitlines()[-1]

    def test_the_same_file(self) -> None:
        self.file("copy.csv", self.text)
        for words in PAGES:
            text = self.footer(*words, "--made-from", "copy.csv", "--carrier", "C")
            self.assertIn(f"made from: copy.csv, sha256 {sha256(self.text)}", text)
            self.assertIn(self.kept, text)

    def test_another_file(self) -> None:
        self.file("other.csv", "x")
        want = f"ltd: --made-from 'other.csv', sha256 {sha256('x')}: 'x.claims' was packed from another file: in.csv, sha256 {sha256(self.text)}"
        for words in PAGES:
            for more in (("--html", "q.html"), ("--json",), ()):
                self.assertEqual(self.refused((*words, *more), "in.csv", "other.csv"), want)
        self.assertEqual(self.refused(("years", "--closings", "c.csv", "--html", "q.html"), "other.csv"), want)

    def test_a_file_that_is_not_there(self) -> None:
        for words in PAGES:
            for more in (("--html", "q.html"), ("--json",), ()):
                ended = self.ltd(*words, *more, "x.claims", "r.bin", "--made-from", "nowhere", status=2)
                self.assertEqual((ended.out, ended.err.splitlines()[-1]), ("", "ltd: there is no file 'nowhere'"))

    def test_the_map(self) -> None:
        self.file("other.toml", "x")
        said = self.refused(("study",), "m.toml")
        self.assertIn("--made-from 'm.toml'", said)
        self.ltd("pack", "in.csv", "x.claims", "--map", "m.toml", *WINDOW_WORDS)
        self.assertIn(f"made from: m.toml, sha256 {sha256(SAME_COLUMNS)}", self.footer("study", "--made-from", "in.csv", "m.toml"))
        said = self.refused(("study",), "in.csv", "other.toml")
        kept = f"in.csv, sha256 {sha256(self.text)}; x.claims.map.toml, sha256 {sha256(SAME_COLUMNS)}"
        self.assertEqual(said, f"ltd: --made-from 'other.toml', sha256 {sha256('x')}: 'x.claims' was packed from another file: {kept}")


class InJson(MadeFrom):
    """A JSON keeps the files that its page names, each followed by those that it was made from; pool and total say them file by file."""

    def setUp(self) -> None:
        super().setUp()
        self.ltd("pack", "in.csv", "x.claims", "--map", "m.toml", *WINDOW_WORDS)
        self.claims = [self.kept_of("claims", "x.claims"), self.kept_of("csv", "in.csv"), self.kept_of("map", "x.claims.map.toml")]
        self.of_study = [*self.claims, self.kept_of("rates", "r.bin")]

    def kept_of(self, what: str, name: str) -> Dict[str, str]:
        """What is kept of a file."""
        return {"what": what, "name": name, "sha256": sha256((self.folder / name).read_bytes())}

    def saved(self, name: str, *words: object) -> List[Dict[str, str]]:
        """What a command prints as JSON is saved; its sources."""
        self.file(name, self.ltd(*words, "--json").out)
        return json.loads((self.folder / name).read_text())["sources"]  # type: ignore[no-any-return]

    def foot(self, *words: object) -> str:
        """What a page says from the day on which it was made."""
        self.ltd(*words, "--html", "p.html")
        return Page((self.folder / "p.html").read_text(encoding="utf-8")).texts["p"].split("Made on ")[1][len("2026-01-01") :]

    def said(self, what: str, name: str, kept: List[Dict[str, str]]) -> str:
        """A saved file and its sources, as a page says them."""
        lines = [f"{one['what']}: {one['name']}, sha256 {one['sha256']}" for one in [self.kept_of(what, name), *kept]]
        return f"{what}: ".join([lines[0], *lines[1:]])

    def taken_back(self) -> List[Dict[str, str]]:
        """Saves w.json, a study of which two claims are taken back; the sources that it has to keep."""
        self.saved("s.json", "study", "x.claims", "r.bin")
        self.file("back.csv", "\n".join(self.text.splitlines()[:3]))
        self.ltd("pack", "back.csv", "back.claims", *WINDOW_WORDS)
        words = ("withdraw", "s.json", "back.claims", "r.bin", "--among", "x.claims")
        back = [self.kept_of("claims taken back", "back.claims"), self.kept_of("csv", "back.csv"), self.kept_of("rates", "r.bin")]
        among = [{**self.claims[0], "what": "among"}, *self.claims[1:]]
        wanted = [self.kept_of("study", "s.json"), *self.of_study, *back, *among]
        self.assertEqual(self.saved("w.json", *words), wanted)
        self.assertTrue(self.foot(*words).startswith(self.said("study", "s.json", self.of_study) + "claims taken back: back.claims, "))
        return wanted

    def test_each_file_of_the_page(self) -> None:
        for command, *more in PAGES:
            words = (command, "x.claims", "r.bin", *more)
            self.assertEqual(self.saved("a.json", *words), self.of_study)
            named = (*words, "--made-from", "in.csv", "m.toml")
            more_files = [self.kept_of("made from", "in.csv"), self.kept_of("made from", "m.toml")]
            self.assertEqual(self.saved("a.json", *named), [*self.of_study, *more_files])
            foot = self.foot(*named)
            for one in [*self.of_study, *more_files]:
                self.assertIn(f"{one['name']}, sha256 {one['sha256']}", foot)

    def test_without_a_map_and_without_a_csv(self) -> None:
        self.ltd("pack", "in.csv", "x.claims", *WINDOW_WORDS)
        self.assertEqual(self.saved("a.json", "study", "x.claims", "r.bin"), [self.of_study[0], self.of_study[1], self.of_study[3]])
        (self.folder / "x.claims.how.toml").unlink()
        self.assertEqual(self.saved("a.json", "study", "x.claims", "r.bin"), [self.of_study[0], self.of_study[3]])

    def test_a_map_of_which_an_older_pack_kept_no_csv(self) -> None:
        claims, mapped = self.claims[0]["sha256"], self.claims[2]["sha256"]
        self.file("x.claims.how.toml", f'sha256 = "{claims}"\nnotes = []\nfiles = ["map.toml"]\nmap_sha256 = "{mapped}"\n')
        self.assertEqual(self.saved("a.json", "years", "x.claims", "r.bin"), [self.of_study[0], *self.of_study[2:]])

    def test_a_map_that_is_no_longer_there(self) -> None:
        for change in (lambda path: path.write_text("x"), lambda path: path.unlink()):
            change(self.folder / "x.claims.map.toml")
            self.assertEqual(self.saved("a.json", "study", "x.claims", "r.bin"), self.of_study)
            self.assertIn(f"claims: map: sha256 {sha256(SAME_COLUMNS)}; the map beside the file is missing", self.footer())

    def test_values_of_a_column(self) -> None:
        self.file("by.csv", "region\n" + "north\n" * 40)
        self.assertEqual(self.saved("a.json", "study", "x.claims", "r.bin", "--by", "by.csv"), [*self.of_study, self.kept_of("values", "by.csv")])

    def test_a_pool_says_them_file_by_file_and_hands_them_on(self) -> None:
        wanted = self.taken_back()
        self.packed(sound_claims(random.Random(47), 5), name="y.claims")
        second = self.saved("t.json", "study", "y.claims", "r.bin")
        self.assertEqual(second, [self.kept_of("claims", "y.claims"), self.kept_of("rates", "r.bin")])
        self.assertEqual(self.foot("pool", "w.json", "t.json"), self.said("study", "w.json", wanted) + self.said("study", "t.json", second))
        pooled = [self.kept_of("study", "w.json"), *wanted, self.kept_of("study", "t.json"), *second]
        self.assertEqual(self.saved("p.json", "pool", "w.json", "t.json"), pooled)
        self.assertEqual(self.foot("pool", "p.json"), self.said("study", "p.json", pooled))
        self.assertEqual(self.foot("total", "p.json"), self.said("file", "p.json", pooled))

    def test_a_total_says_them_file_by_file(self) -> None:
        self.taken_back()
        self.assertEqual(self.foot("total", "w.json"), self.said("file", "w.json", json.loads((self.folder / "w.json").read_text())["sources"]))
        for command, *more in PAGES:
            kept = self.saved("a.json", command, "x.claims", "r.bin", *more)
            self.assertEqual(self.foot("total", "a.json"), self.said("file", "a.json", kept))
        self.saved("y.json", "years", "x.claims", "r.bin")
        two = self.said("file", "s.json", self.of_study) + self.said("file", "y.json", self.of_study)
        self.assertEqual(self.foot("total", "s.json", "y.json"), two)

    def without(self, name: str, *words: object) -> None:
        """What an older command saved."""
        found = json.loads(self.ltd(*words, "--json").out)
        del found["sources"]
        self.file(name, json.dumps(found))

    def test_nothing_is_said_of_an_older_json(self) -> None:
        self.without("s.json", "study", "x.claims", "r.bin")
        self.assertEqual(self.foot("pool", "s.json"), self.said("study", "s.json", []))
        self.assertEqual(self.saved("p.json", "pool", "s.json"), [self.kept_of("study", "s.json")])
        self.ltd("withdraw", "s.json", "x.claims", "r.bin")
        for command, *more in PAGES:
            self.without("a.json", command, "x.claims", "r.bin", *more)
            self.assertEqual(self.foot("total", "a.json"), self.said("file", "a.json", []))
        self.without("q.json", "pool", "s.json")
        self.assertEqual(self.foot("total", "q.json"), self.said("file", "q.json", []))
        self.assertEqual(self.foot("pool", "q.json"), self.said("study", "q.json", []))

    def test_odd_names(self) -> None:
        for name in (b"<b>&'.claims", b"\xe9.claims", "\u00e9\n.claims".encode()):
            path = os.path.join(os.fsencode(self.folder), name)
            with open(path, "wb") as out:
                out.write((self.folder / "x.claims").read_bytes())
            kept = self.saved("a.json", "study", os.fsdecode(name), "r.bin")
            self.assertEqual(kept[0]["name"], os.fsdecode(name))
            shown = os.fsdecode(name).encode("utf-8", "backslashreplace").decode()
            for command, what in (("pool", "study"), ("total", "file")):
                self.assertIn(f"{what}: claims: {shown}, sha256 {kept[0]['sha256']}", self.foot(command, "a.json"))

    EDITS: Tuple[Tuple[object, str], ...] = (
        (None, "sources are no list"),
        ("claims", "sources are no list"),
        ({"what": "claims"}, "sources are no list"),
        ([5], "a source is no object"),
        (["claims"], "a source is no object"),
        ([{"name": "x.claims", "sha256": "0" * 64}], "missing or not as it was saved: 'what'"),
        ([{"what": "claims", "sha256": "0" * 64}], "missing or not as it was saved: 'name'"),
        ([{"what": "claims", "name": "x.claims"}], "missing or not as it was saved: 'sha256'"),
        ([{"what": 1, "name": "x.claims", "sha256": "0" * 64}], "a source's what is no text"),
        ([{"what": "claims", "name": None, "sha256": "0" * 64}], "a source's name is no text"),
        ([{"what": "claims", "name": "x.claims", "sha256": 7}], "a source's sha256 is no text"),
        ([{"what": "claims", "name": "x.claims", "sha256": "0" * 63}], "a source's sha256 is no sha256"),
        ([{"what": "claims", "name": "x.claims", "sha256": "A" * 64}], "a source's sha256 is no sha256"),
        ([{"what": "claims", "name": "x.claims", "sha256": "0" * 64 + "\n"}], "a source's sha256 is no sha256"),
    )

    def test_edits_are_refused(self) -> None:
        self.saved("s.json", "study", "x.claims", "r.bin")
        kinds = [*((command, "x.claims", "r.bin", *more) for command, *more in PAGES), ("pool", "s.json")]
        for words in kinds:
            self.saved("a.json", *words)
            found = json.loads((self.folder / "a.json").read_text())
            for sources, message in self.EDITS:
                self.file("edited.json", json.dumps({**found, "sources": sources}))
                readers = [("total", "edited.json")]
                readers += [("pool", "edited.json"), ("withdraw", "edited.json", "x.claims", "r.bin")] if words[0] == "study" else []
                for reader in readers:
                    ended = self.ltd(*reader, status=1)
                    self.assertTrue(ended.err.startswith("ltd: 'edited.json': "), ended.err)
                    self.assertIn(message, ended.err)
                    self.assertEqual((ended.out, len(ended.err.splitlines())), ("", 1))


class Older(MadeFrom):
    """What an older 'pack' left is read as it was: it has no hash of its CSV, so any file may be named."""

    def older(self, more: str = "") -> None:
        """As 1.0.0 and 1.1.0 until now wrote it."""
        claims, mapped = ((self.folder / name).read_bytes() for name in ("x.claims", "m.toml"))
        self.file("x.claims.map.toml", mapped)
        how = f'sha256 = "{sha256(claims)}"\n{more}notes = ["packed from in.csv with a map", "passed over as the map says: 1 title line"]\n'
        self.file("x.claims.how.toml", f'{how}files = ["map.toml"]\nmap_sha256 = "{sha256(mapped)}"\n')

    def test_with_a_map(self) -> None:
        self.older()
        self.file("other.csv", "x")
        for words in PAGES:
            text = self.footer(*words, "--made-from", "other.csv")
            self.assertIn("claims: packed from in.csv with a map", text)
            self.assertIn("claims: passed over as the map says: 1 title line", text)
            self.assertIn(f"claims: map: x.claims.map.toml, sha256 {sha256(SAME_COLUMNS)}", text)
            self.assertIn(f"made from: other.csv, sha256 {sha256('x')}", text)
            self.assertNotIn(sha256(self.text), text)

    def test_without_a_map(self) -> None:
        (self.folder / "x.claims.how.toml").unlink()
        self.file("other.csv", "x")
        text = self.footer("study", "--made-from", "other.csv")
        self.assertNotIn("packed from", text)
        self.assertIn(f"made from: other.csv, sha256 {sha256('x')}", text)

    def test_packed_again(self) -> None:
        self.older()
        self.ltd("pack", "in.csv", "x.claims", *WINDOW_WORDS)
        self.assertNotIn("x.claims.map.toml", self.names())
        self.assertIn(self.kept, self.footer())

    def test_what_is_no_name_or_no_hash(self) -> None:
        for more in ("csv = 5\n", f'csv = "in.csv"\ncsv_sha256 = ["{"0" * 64}"]\n', f'csv_sha256 = "{"0" * 64}"\n'):
            self.older(more)
            self.assertIn("claims: packed from in.csv with a map", self.footer("study", "--made-from", "in.csv"))
        self.file("x.claims.how.toml", b"\xff")
        self.assertEqual(made(str(self.folder / "x.claims"), "0"), ((), "", ()))
