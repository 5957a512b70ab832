"""docs/PROMISES.md names what is there: each path, each name in the file before it, each must-fail edit, and each case
of ``./stick cases``; so does docs/SLIPS.md. Each public function promises, and its promise decides or is listed in docs/DECISIONS.md."""

from __future__ import annotations

import re
import shutil
import tempfile
import unittest
from dataclasses import dataclass
from pathlib import Path

from fixlomand import cases

REPOSITORY = Path(__file__).resolve().parents[2]
CRATES = REPOSITORY / "crates"
PROMISES = REPOSITORY / "docs" / "PROMISES.md"
DECISIONS = REPOSITORY / "docs" / "DECISIONS.md"

FILE = re.compile(r"[\w.-]+(/[\w.-]+)*/[\w.-]+\.(antt|rt|rs|py|md|c|h)|play/(script\.txt|stdout)")
BESIDE = ("host/", "model/", "docs/", "firmware/include/", "firmware/tests/", "firmware/example/", "firmware/bench/")
"""Where a path is below the repository and not below crates/."""
EDIT = re.compile(r"[a-z]+/\w+")
WORDS = {"play", "rt ci", "./test", "crate/name", "crates/", "host/", "model/", "docs/"}
WORDS |= {"specs", "src", "Decided.antt", "requires", "ensures", "match", "u8", "0x"}
WORDS |= {"&mut", "&mut area[from..end]", 'extern "C"'}
"""What stands in code marks and names no file, nor anything in one."""
FREE = {"≡", "length", "take", "drop", "set", "get_or", "sets", "replicate"}
FREE |= {crate.name for crate in CRATES.iterdir()}
"""The same where no file stands before it: the toolchain's words, and crates."""

DECLARED = {
    ".antt": (r"^ *(?:abbrev |unfoldable )?(?:pub )?(?:record |data )?{}(?: [({{].*)? :",),
    ".rt": (r"\b(?:fn|struct|enum|const|type) {}\b", r"^ *pub {}:"),
    ".rs": (r"\bfn {}\b",),
    ".py": (r"\b(?:def|class) {}\b", r"^{}\b.* = "),
    ".md": (),
    ".c": (),
    ".h": (),
}
"""How a name is declared, by the kind of file."""
PART = {".antt": r"^ *pub record {}\b(?:.|\n)*?(?=\n\n|\Z)", ".rt": r"^impl {}\b(?:.|\n)*?(?=\n}})"}
"""What a field, or a method, is declared in."""


def declares(file: Path, name: str) -> bool:
    """Whether the file declares the name; a field as ``Record.field``, a method as ``Type::method``."""
    text = file.read_text(encoding="utf-8")
    *whole, last = re.split(r"\.|::", name)
    for outer in whole:
        part = re.search(PART[file.suffix].format(re.escape(outer)), text, re.MULTILINE)
        text = part[0] if part else ""
    return any(re.search(way.format(re.escape(last)), text, re.MULTILINE) for way in DECLARED[file.suffix])


def units(text: str) -> list[str]:
    """The cells of the tables, and the paragraphs and list items beside them."""
    lines = re.sub(r"\n(?!\n|\||- |\d\. )(?<!\n\n)", " ", text)
    return [unit for line in lines.splitlines() for unit in line.split(" | ")]


def faults(text: str) -> list[str]:
    """What the document names and is not there."""
    wrong = []
    places = {each.place for each in cases.CASES}
    for unit in units(text):
        file: Path | None = None
        played = False
        for word, quoted in re.findall(r"`([^`]+)`|\"([^\"]+)\"", unit):
            if quoted:
                if played and quoted not in places:
                    wrong.append(f"no case {quoted}")
            elif word == "./stick cases":
                played = True
            elif FILE.fullmatch(word):
                below = REPOSITORY if word.startswith(BESIDE) else CRATES
                file, played = below / word, False
                if not file.is_file():
                    wrong.append(f"no file {word}")
                    file = None
            elif file and file.suffix in DECLARED and declares(file, word):
                continue
            elif word in WORDS or not file and word in FREE:
                continue
            elif EDIT.fullmatch(word):
                crate, name = word.split("/")
                if not (CRATES / crate / "must-fail" / f"{name}.edit").is_file():
                    wrong.append(f"no edit {word}")
            else:
                wrong.append(f"no {word} in {file.relative_to(REPOSITORY) if file else 'any file'}: {unit.strip()}")
    return wrong


class Promises(unittest.TestCase):
    def setUp(self) -> None:
        self.text = PROMISES.read_text(encoding="utf-8")

    def test_all_is_there(self) -> None:
        self.assertEqual(faults(self.text), [])

    def test_four_cells(self) -> None:
        rows = [line for line in self.text.splitlines() if line.startswith("| ")]
        self.assertGreater(len(rows), 200)
        for row in rows:
            self.assertRegex(row, r"^\| [^|]+ \| [^|]+ \| [^|]+ \| [^|]+ \|$")

    def test_what_is_not_there(self) -> None:
        for line in (
            "`calls/specs/Call.antt`",
            "`calls/specs/Calls.antt` `freshly`",
            "`calls/specs/Calls.antt` `fresh`",
            "`calls/specs/Calls.antt` `fresh_call` | `take_call`",
            "`rules/specs/Answers.antt` `FirstAnswers.length`",
            "`rules/specs/Answers.antt` `FirstAnswers.idle`",
            "`blocks/src/lib.rt` `Gather::closed`",
            "`stick/src/lib.rt` `untick`",
            "`stick/never_there`",
            '`./stick cases` "manual, CLOSE", "manual, nowhere"',
            "`model/tests/cases.rs` `case_13`",
            "`fresh_call`",
            "`calls/specs/Calls.antt` `take`",
            "`calls/specs/Calls.antt` `keys`",
        ):
            self.assertEqual(len(faults(line)), 1, line)
        for line in ("`calls/specs/Calls.antt` `fresh_call`, `take_call`", "`blocks/src/lib.rt` `Table::closed`"):
            self.assertEqual(faults(line), [], line)


class Slips(unittest.TestCase):
    """docs/SLIPS.md names what is there, and what tools/slips would change is there to be changed."""

    def setUp(self) -> None:
        text = (REPOSITORY / "docs" / "SLIPS.md").read_text(encoding="utf-8")
        lines = [line for line in text.splitlines() if line.startswith("| ") and not line.startswith("| slip")]
        self.rows = [line.strip("| ").split(" | ") for line in lines]

    def test_all_is_there(self) -> None:
        self.assertGreaterEqual(len(self.rows), 30)
        for _, changed, seen, _ in self.rows:
            self.assertEqual(faults(changed) + faults(seen), [])

    def test_each_can_be_made(self) -> None:
        files = {file.stem: file for file in (REPOSITORY / "tools" / "slips").glob("*.slip")}
        self.assertEqual({row[3].strip("`") for row in self.rows} - {"by hand"}, set(files))
        for slip in files.values():
            text = ""
            for line in slip.read_text(encoding="utf-8").splitlines():
                key, _, rest = line.partition(": ")
                if key == "file":
                    text = (CRATES / rest).read_text(encoding="utf-8")
                elif key == "old":
                    self.assertEqual(text.count(rest), 1, f"{slip.name}: {rest}")
                elif key == "every":
                    self.assertIn(rest, text, slip.name)


@dataclass(frozen=True)
class Function:
    """A public function."""

    crate: str
    file: str
    """Below the crate's ``src``."""
    name: str
    """A method's as ``Type.method``."""
    contract: str

    @property
    def path(self) -> str:
        """The function's path in the crate, as its generated modules have it."""
        module = self.file.removesuffix(".rt")
        return self.name if module == "lib" else f"{module}.{self.name}"

    def __str__(self) -> str:
        return f"{self.crate}/src/{self.file} {self.name}"


def functions(crates: Path) -> list[Function]:
    """Every public function, and every function of a trait's impl, of every crate but the program, its library and what C links,
    whose promises are firmware's."""
    found = []
    for file in sorted(crates.glob("*/src/*.rt")):
        crate = file.parts[-3]
        if crate in {"play", "script", "firmware_c"}:
            continue
        owner, of = "", ""
        for outer, argument, type_of, indent, public, name, contract in re.findall(
            r"^impl (\w+)(?:<(\w+)>)?(?: for (\w+))?|^( *)(pub )?(?:extern \"C\" )?fn (\w+)((?:.|\n)*?)\{\n",
            file.read_text(encoding="utf-8"),
            re.MULTILINE,
        ):
            if outer:
                of = type_of[:1].upper() + type_of[1:]
                owner = of + outer + argument if of else outer
            elif public or (indent and of):
                found.append(Function(crate, file.name, f"{owner}.{name}" if indent else name, contract))
    return found


SAYS = r"(\w+)\.ps (\w+)\.r (\w+)\.Pre (\w+)\.Learnt"
"""What a law is about: kinds twice and readings twice, all four of one function."""
ENDINGS = ("decides", "allows")
"""How the names of a function's two laws end."""
Laws = dict[tuple[str, str], dict[str, str]]
"""By a function's crate and path, the names of the law that it ``decides`` and of the one that it ``allows``."""


class Decided:
    """A file ``Decided.antt``, without its comments."""

    def __init__(self, file: Path) -> None:
        text = file.read_text(encoding="utf-8") if file.is_file() else ""
        self.text = re.sub(r"^ *--.*\n", "", text, flags=re.MULTILINE)
        use = r"^use Rattle\.(\w+)\.proofs\.([\w.]+)\.(Kinds|Reads) as (\w+)$"
        self._named = {name: (crate, path, kind) for crate, path, kind, name in self._found(use)}

    def _found(self, pattern: str) -> list[tuple[str, ...]]:
        return re.findall(pattern, self.text, re.MULTILINE)

    def _about(self, says: list[str]) -> tuple[str, str] | None:
        """The crate and the path of the one function that kinds and readings are of."""
        of = [self._named.get(name, ("", "", "")) for name in says]
        crate, path, _ = of[0]
        one = [(crate, path, kind) for kind in ("Kinds", "Kinds", "Reads", "Reads")]
        return (crate, path) if of == one else None

    def laws(self) -> Laws:
        """The laws that a crate's own file has."""
        found: Laws = {}
        for name, word, law, *says in self._found(rf"^pub (\w+_([a-z]+)) : (\w+) {SAYS}$"):
            of = self._about(says)
            if of and (word, law) in {("decides", "Decides"), ("allows", "Allows")}:
                found.setdefault(of, {})[word] = name
        return found

    def gathered(self) -> Laws:
        """The laws that ``all_decided`` gathers."""
        found: Laws = {}
        crates = {name: crate for crate, name in self._found(r"^use Rattle\.(\w+)\.proofs\.Decided as (\w+)$")}
        lists = dict(self._found(r"^(\w+) =((?:.|\n)*?)(?=\n\n|\Z)"))
        name = "all_decided"
        while name in lists:
            body = lists.pop(name)
            promise = rf"\bpromise {SAYS} (\w+)\.(\w+) (\w+)\.(\w+)"
            for *says, one, decides, other, allows in re.findall(promise, body):
                of = self._about(says)
                if of and crates.get(one) == crates.get(other) == of[0]:
                    found[of] = {"decides": decides, "allows": allows}
            # The list that it goes on with.
            name = re.findall(r"\w+", body)[-1]
        return found


def undecided(crates: Path) -> list[str]:
    """The public functions that have no promise, no law that it decides or allows, or one that is not gathered."""
    wrong = []
    public = functions(crates)
    laws = {crate: Decided(crates / crate / "proofs" / "Decided.antt").laws() for crate in {f.crate for f in public}}
    gathered = Decided(crates / "demands" / "proofs" / "Decided.antt").gathered()
    for each in public:
        own, all_of_them = (of.get((each.crate, each.path), {}) for of in (laws[each.crate], gathered))
        if "ensures " not in each.contract:
            wrong.append(f"{each}: no promise")
        for word in ENDINGS:
            if word not in own:
                wrong.append(f"{each}: no law that it {word}")
            elif all_of_them.get(word) != own[word]:
                wrong.append(f"{each}: {own[word]} is not gathered")
    return wrong


class Functions(unittest.TestCase):
    def setUp(self) -> None:
        self.functions = functions(CRATES)

    def test_each_impl_is_read(self) -> None:
        """`functions` reads an impl's head by these words alone: one with more would be passed over."""
        for file in CRATES.glob("*/src/*.rt"):
            if file.parts[-3] not in {"play", "script", "firmware_c"}:
                for head in re.findall(r"^ *(?:unsafe )?impl\b.*", file.read_text(encoding="utf-8"), re.MULTILINE):
                    self.assertRegex(head, r"^impl \w+(<\w+>)?( for \w+)? \{$", file)

    def test_each_promise_decides(self) -> None:
        self.assertGreater(len(self.functions), 100)
        self.assertEqual(len({(each.crate, each.path) for each in self.functions}), len(self.functions))
        self.assertEqual(undecided(CRATES), [])

    def test_what_c_links(self) -> None:
        """Each of its functions promises what firmware's function of that name does."""
        with tempfile.TemporaryDirectory() as folder:
            for name in ("firmware", "firmware_c"):
                shutil.copytree(CRATES / name / "src", Path(folder) / name / "src")
            first = functions(Path(folder))
            (Path(folder) / "firmware_c").rename(Path(folder) / "linked")
            second = [each for each in functions(Path(folder)) if each.crate == "linked"]
        self.assertEqual(len(first), 7)
        self.assertEqual({(each.name, each.contract) for each in first}, {(each.name, each.contract) for each in second})

    def test_a_promise_that_does_not_decide(self) -> None:
        """In a copy one law is taken away, mostly with another's put in its place, and that alone is told."""
        says = "{0}_kinds.ps {0}_kinds.r {0}_reads.Pre {0}_reads.Learnt"
        law = "pub device_of_decides : Decides " + says
        own, other = law.format("device_of"), law.format("offers")
        promise = f"promise blocks_{says} blocks.{{0}}_decides blocks.{{0}}_allows (".replace(" {0}", " blocks_{0}")
        contract = "pub fn device_of(byte: u8) -> Option<Device>\n    ensures "
        source, decided, demands = "blocks/src/lib.rt", "blocks/proofs/Decided.antt", "demands/proofs/Decided.antt"
        no_law = [f"{source} device_of: no law that it {word}" for word in ENDINGS]
        neither = [f"{source} device_of: device_of_{word} is not gathered" for word in ENDINGS]
        too = [each.replace("device_of", "device_too") for each in no_law]
        judge = [f"judge/src/lib.rt undamaged: undamaged_{word} is not gathered" for word in ENDINGS]
        calls = [(call, word) for call in ("translate", "doctor", "fresh", "take", "tick", "give", "press") for word in ENDINGS]
        firmware = [f"firmware/src/lib.rt fixlomand_{call}: {call}_{word} is not gathered" for call, word in calls]
        for file, old, new, told in (
            (decided, own, other, no_law[:1]),
            (decided, own, own.replace("device_of_reads.Learnt", "offers_reads.Learnt"), no_law[:1]),
            (decided, own, own.replace("Decides", "Allows"), no_law[:1]),
            (decided, own, f"-- {own}", no_law[:1]),
            (decided, ".device_of.Reads as", ".offers.Reads as", no_law),
            (decided, ".device_of.Kinds as", ".offers.Kinds as", no_law),
            (demands, promise.format("device_of"), promise.format("aux1_reads"), neither),
            (demands, "blocks.device_of_allows", "blocks.offers_allows", neither[1:]),
            (demands, "blocks.device_of_decides", "acts.device_of_decides", neither),
            (demands, ".device_of.Kinds as", ".offers.Kinds as", neither),
            (source, contract, contract.replace("ensures", "requires"), [f"{source} device_of: no promise"]),
            (decided, own.replace("device_of", "status_from"), own, [each.replace("device_of", "U8FromSpecificationError.from") for each in no_law[:1]]),
            (source, "pub fn device_of(", "pub fn device_too()\n    ensures true\n{\n}\n\npub fn device_of(", too),
            (source, "impl Gather {", "impl Letter {", [each.replace("device_of", "Letter.fresh") for each in no_law]),
            # A crate that is passed over, and the last.
            (demands, "judge_decided))", "devices_decided))", judge),
            (demands, "all_decided = firmware_decided", "all_decided = stick_decided", firmware),
        ):
            with self.subTest(file=file, new=new):
                self.assertEqual(self.changed(file, old, new), told)

    def changed(self, file: str, old: str, new: str) -> list[str]:
        """What is told of the crates after a change of one file."""
        with tempfile.TemporaryDirectory() as folder:
            copy = Path(folder)
            for each in (*CRATES.glob("*/src/*.rt"), *CRATES.glob("*/proofs/Decided.antt")):
                (copy / each.relative_to(CRATES)).parent.mkdir(parents=True, exist_ok=True)
                shutil.copy(each, copy / each.relative_to(CRATES))
            text = (copy / file).read_text(encoding="utf-8")
            self.assertEqual(text.count(old), 1, old)
            (copy / file).write_text(text.replace(old, new), encoding="utf-8")
            return undecided(copy)

    def test_the_list_of_exceptions(self) -> None:
        part = DECISIONS.read_text(encoding="utf-8").split("## Public functions that ask something of their caller")[1]
        listed = set()
        for names in re.findall(r"^\| (`.*?) \| ", part.split("\n## ")[0], re.MULTILINE):
            first, *others = re.findall(r"`([\w:]+)`", names)
            listed |= {(first.split("::")[0], name.split("::")[-1]) for name in (first, *others)}
        asking = {(each.crate, each.name.split(".")[-1]) for each in self.functions if "requires " in each.contract}
        self.assertEqual(listed, asking)


if __name__ == "__main__":
    unittest.main()
