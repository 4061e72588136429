"""Words, numbers and exceptions: what needs neither program nor library. Structs are compared with nashirudder.h."""

import array
import contextlib
import ctypes
import os
import pathlib
import pickle
import re
import tempfile
import unittest
from unittest import mock

import nashirudder
from nashirudder import arrays, calls, errors, finding, library, names, opening, ranges
from nashirudder.errors import FileFailed, FleetError, Missing, OrderRefused, OutOfRange, Refused

TOP = pathlib.Path(__file__).resolve().parents[4]
HEADER = (TOP / "bindings" / "c" / "nashirudder.h").read_text()
BARE = re.sub(r"/\*.*?\*/", " ", HEADER, flags=re.S)

KINDS = {
    "uint8_t": ctypes.c_uint8, "uint16_t": ctypes.c_uint16, "uint32_t": ctypes.c_uint32, "uint64_t": ctypes.c_uint64, "size_t": ctypes.c_size_t,
    "bool": ctypes.c_bool, "void *": ctypes.c_void_p, "char": ctypes.c_char, "nashirudder_code": ctypes.c_uint32,
    "nashirudder_verdict": ctypes.c_uint32, "nashirudder_kind": ctypes.c_uint32,
    "nashirudder_state": ctypes.c_uint32,
}
STRUCTS = {
    "fleet": calls.CFleet, "setup": calls.CSetup, "robot": calls.CRobot, "fault": calls.CFault,
    "judgement": calls.CJudgement, "report": calls.CReport, "note": calls.CNote, "order": calls.COrder,
    "arrival": calls.CArrival, "edge": calls.CEdge, "map": calls.CMap, "shape": calls.CShape,
    "errand": calls.CErrand, "standing": calls.CStanding, "account": calls.CAccount, "chapter": calls.CChapter,
    "execution": calls.CExecution, "move": calls.CMove, "whereabouts": calls.CWhereabouts, "progress": calls.CProgress,
    "shield": calls.CShield,
}


def kind_of(spelled):
    """The ctypes type of a C type."""
    spelled = " ".join(spelled.replace("const ", "").replace("*", " * ").split())
    if spelled in KINDS:
        return KINDS[spelled]
    if spelled.endswith(" *"):
        return ctypes.POINTER(kind_of(spelled[:-2]))
    return STRUCTS[spelled.removeprefix("nashirudder_")]


def is_same(ours, theirs):
    """Whether two types are the same for a call; bytes may be handed as text."""
    return ours is theirs or (ours is ctypes.c_char_p and theirs is ctypes.POINTER(ctypes.c_uint8))


class HeaderTest(unittest.TestCase):
    def test_structs(self):
        found = re.findall(r"typedef struct \w+ \{(.*?)\} nashirudder_(\w+);", BARE, re.S)
        self.assertEqual({name for _, name in found}, set(STRUCTS))
        for body, name in found:
            fields = []
            for field in filter(None, (" ".join(field.split()) for field in body.split(";"))):
                spelled, field_name, count = re.fullmatch(r"(.*?[ *])(\w+)(?:\[(\d+)\])?", field).groups()
                kind = kind_of(spelled)
                fields.append((field_name, kind * int(count) if count else kind))
            self.assertEqual(fields, list(STRUCTS[name]._fields_), name)

    def test_functions(self):
        form = r"^(?:NASHIRUDDER_MUST_USE )?(nashirudder_code|uint32_t|size_t|bool|void) nashirudder_(\w+)\(([^)]*)\);"
        found = re.findall(form, BARE, re.M)
        self.assertEqual({name for _, name, _ in found}, set(calls.FUNCTIONS))
        for result, name, parameters in found:
            answers = None if result == "void" else kind_of(result)
            self.assertIs(calls.RESULTS.get(name, ctypes.c_uint32), answers, name)
            words = [" ".join(parameter.split()) for parameter in parameters.split(",") if parameter != "void"]
            wanted = [kind_of(re.sub(r"\w+$", "", word)) for word in words]
            self.assertEqual(len(wanted), len(calls.FUNCTIONS[name]), name)
            for ours, theirs in zip(calls.FUNCTIONS[name], wanted):
                self.assertTrue(is_same(ours, theirs), (name, ours, theirs))

    def test_states(self):
        found = re.search(r"typedef NASHIRUDDER_ENUM\(nashirudder_state\) \{(.*?)\}", BARE, re.S)[1]
        numbers = {word.lower(): int(number) for word, number in re.findall(r"NASHIRUDDER_(\w+) = (\d+)", found)}
        self.assertEqual(numbers, {word: number for number, word in enumerate(names.STATES) if word})
        self.assertEqual(int(re.search(r"#define NASHIRUDDER_NOWHERE (\d+)", HEADER)[1]), calls.NOWHERE)

    def test_every_refusal_has_a_sentence(self):
        answers = {"done", "no-memory", "already-open", "no-notice", "idle", "has-bridge", "no-bridge"}
        words = {code.word for code in names.Code} - answers
        words |= {verdict.word for verdict in names.Verdict} - {"accepted", "closed"}
        self.assertEqual(words | {"lane-full", "numbers-spent"}, set(names.SENTENCES))

    def test_sentences_are_the_librarys(self):
        text = (TOP / "crates" / "fleet_c" / "src" / "sentences.rt").read_text()
        found = {int(number): told for number, told in re.findall(r'^ +(\d+) => (?:\{\s*)?"(.*)"', text, re.M)}
        # The last arm of each function is for the greatest number of its kind.
        rest = re.findall(r'^fn \w+.*?\b_ => (?:\{\s*)?"(.*?)"', text, re.M | re.S)
        found.update(zip((19, 14, 35, 49, 57, 66, 77), rest))
        self.assertEqual(set(found), {int(code) for code in names.Code})
        for word, sentence in names.SENTENCES.items():
            if word in names.CODE_OF:
                self.assertEqual(sentence, found[names.CODE_OF[word]], word)

    def test_version(self):
        cargo = (TOP / "bindings" / "rust" / "Cargo.toml").read_text()
        self.assertEqual(nashirudder.__version__, re.search(r'^version = "(.*)"', cargo, re.M)[1])


class ExceptionsTest(unittest.TestCase):
    def test_one_tree(self):
        kinds = [kind for kind in vars(errors).values() if isinstance(kind, type) and issubclass(kind, BaseException)]
        self.assertEqual(len(kinds), 10)
        self.assertTrue(all(issubclass(kind, FleetError) for kind in kinds))
        known = {"OutOfRange": ValueError, "Late": TimeoutError, "FileFailed": OSError, "NoMemory": MemoryError,
                 "Missing": FileNotFoundError, "OrderRefused": Refused}
        for name, kind in known.items():
            self.assertTrue(issubclass(getattr(errors, name), kind), name)

    def test_texts(self):
        told = str(errors.refusal("start", (1, 0)))
        self.assertEqual(told, "start-blocked: robot 1 starts on a cell that is no floor")
        self.assertEqual(errors.refusal("start").sentence, "robot ? starts on a cell that is no floor")
        self.assertEqual(str(errors.order_refusal(names.Verdict.BLOCKED)), "blocked: the cell is not floor")
        self.assertEqual((str(Refused("something-new")), Refused("something-new").sentence), ("something-new", ""))

    def test_pickled(self):
        refusals = OrderRefused("blocked", 8), Refused("start-shared", 33, (0, 2))
        for error in (*refusals, errors.Ended(3, "fleet: file"), FileFailed("no")):
            again = pickle.loads(pickle.dumps(error))
            self.assertEqual((type(again), str(again), vars(again)), (type(error), str(error), vars(error)))


class NumbersTest(unittest.TestCase):
    def test_cells_for_c(self):
        arrays_of_them = array.array("I", [3, 0, 7]), array.array("q", [3, 0, 7])
        for items in ([3, 0, 7], (3, 0, 7), *arrays_of_them, memoryview(array.array("I", [3, 9, 0, 9, 7]))[::2]):
            self.assertEqual(list(arrays.c_cells("a cell", items)), [3, 0, 7])
        self.assertEqual(len(arrays.c_cells("a cell", [])), 1)
        wrong = array.array("d", [1.0]), array.array("q", [-1]), array.array("Q", [2**32 + 3])
        for items in ([-1], [2**32], [1.0], *wrong, memoryview(bytes(4)).cast("B", (2, 2))):
            with self.subTest(items=items), self.assertRaises(OutOfRange):
                arrays.c_cells("a cell", items)

    def test_lists_without_numpy(self):
        with mock.patch.object(arrays, "_numpy", lambda: None):
            self.assertEqual(arrays.as_cells((ctypes.c_uint32 * 2)(2**32 - 1, 0)), [2**32 - 1, 0])

    def test_limits(self):
        limits = {"queue": 2**32 - 1, "clock": 2**64 - 1}
        self.assertEqual(ranges.checked_limits(limits), limits)
        for limits in ({"queue": 2**32}, {"clock": 2**64}, {"life": -1}, {"chapter": None}):
            with self.assertRaises(OutOfRange):
                ranges.checked_limits(limits)
        with self.assertRaises(TypeError):
            ranges.checked_limits({"speed": 1})


class FilesTest(unittest.TestCase):
    def setUp(self):
        folder = tempfile.TemporaryDirectory()
        self.addCleanup(folder.cleanup)
        self.path = pathlib.Path(folder.name)
        (self.path / "ring.map").write_text("")

    def test_openings(self):
        for kind in (nashirudder.Fleet, library.Fleet, nashirudder.LiveFleet):
            with self.assertRaises(FileFailed):
                kind(self.path / "none.map", [0])
            for robots in ([], range(513)):
                with self.assertRaises(Refused) as caught:
                    kind(self.path / "ring.map", robots)
                self.assertEqual(caught.exception.code, names.Code.ROBOT_COUNT)
        with self.assertRaises(OutOfRange):
            library.Fleet(self.path / "ring.map", [0], ties="south")

    def test_who_is_named(self):
        (self.path / "crlf.map").write_bytes(b"type octile\r\nwidth 03 \r\nheight 2\r\nmap\r\n.GS\r\n@TW\r\n")
        self.assertEqual(opening.sides_of((self.path / "crlf.map").read_bytes()), (2, 3))
        for head in (b"", b"type octile\nheight 2\n", b"type octile\nheight 2\nwidth 1025\nmap\n"):
            self.assertEqual(opening.sides_of(head), (0, 0) if b"width" in head else (2 * (b"height" in head), 0))
        for robots, name, numbers in (([2, 1, 0, 1, 2], "start-shared", (0, 4)), ([0, 1, 2, 4], "start-blocked", (3, 0)),
                                      ([2, 6], "start-blocked", (1, 0)), ([0], "bad-setup", ())):
            told = opening.checked(self.path / "crlf.map", robots, 1, "plain", None, {})
            self.assertEqual(told.named(errors.refusal(name)).numbers, numbers)
        os.remove(self.path / "crlf.map")
        self.assertEqual(told.named(errors.refusal("start-blocked")).numbers, ())

    def test_head(self):
        told = opening.checked(self.path / "ring.map", [0, 8], 2, "south", None, {"queue": 3})
        self.assertEqual(told.head(), ["robots 0 8", "clients 2", "ties south", "queue 3"])

    def place(self, *names):
        """Makes files of these names, and returns the first one's path."""
        paths = [self.path / name for name in names]
        for path in paths:
            path.parent.mkdir(parents=True, exist_ok=True)
            path.touch()
        return str(paths[0])

    @contextlib.contextmanager
    def places(self, named, prefix, path):
        """The places that are looked at; the package is part of no clone."""
        with mock.patch.dict(os.environ, {finding.VARIABLE: named, "PATH": path}), \
                mock.patch.object(finding.sys, "prefix", prefix), mock.patch.object(finding, "__file__", "/a/b/c/d.py"):
            yield

    def test_arguments_come_first(self):
        made, program = self.path / "made", self.place("made/bin/fleet")
        shared = self.place("made/lib/libnashirudder.so.0.1", "made/lib/libnashirudder.so")
        with mock.patch.dict(os.environ, {finding.VARIABLE: "/none"}):
            self.assertEqual((finding.program(program), finding.library(shared)), (program, shared))
            self.assertEqual((finding.program(made), finding.library(made)), (program, shared))
            for built in (self.path, self.path / "none"):
                for find in (finding.program, finding.library):
                    with self.assertRaises(Missing):
                        find(built)

    def test_places_in_turn(self):
        ways = [finding.VARIABLE, "prefix", "PATH"]
        for count in range(len(ways), 0, -1):
            # Those that are left, of which the first is found.
            left = ways[-count:]
            programs = {way: self.place(f"{count}/{way}/bin/fleet") for way in left}
            libraries = {way: self.place(f"{count}/{way}/lib/libnashirudder.so.0.1") for way in left}
            for path in programs.values():
                os.chmod(path, 0o755)
            folder = self.path / str(count)
            with self.places(str(folder / finding.VARIABLE), str(folder / "prefix"), str(folder / "PATH" / "bin")):
                self.assertEqual(finding.program(), programs[left[0]])
                self.assertEqual(finding.library(), libraries[left[0]] if left[0] != "PATH" else finding.SONAME)

    def test_what_is_missing(self):
        with self.places("/nowhere", "/none", ""):
            with self.assertRaises(Missing) as caught:
                finding.program()
            for word in ("/nowhere", "/none", "tools/install --quick fleet", finding.VARIABLE, "PATH"):
                self.assertIn(word, str(caught.exception))
            text = str(finding.no_library(finding.SONAME, "not there"))
            for word in ("/nowhere", "/none", "tools/build_c --quick", "tools/install_c PREFIX", finding.VARIABLE):
                self.assertIn(word, text)

    def test_a_file_that_is_no_library(self):
        with self.assertRaises(Missing) as caught:
            calls.load(self.place("libnashirudder.so"))
        self.assertIn("cannot be loaded", str(caught.exception))


if __name__ == "__main__":
    unittest.main()
