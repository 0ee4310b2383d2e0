"""Which names in code marks of the documents are defined somewhere: `tools/definitions.py --check` prints
those that aren't.

In the tables of docs/PROVED.md a call or a theorem has to be reachable: a function or a type stands at its
crate's root, a method is one of such a type. Elsewhere a name has to be defined in some crate, and a path has
to be a file or a folder. PROVED names each crate, and each crate of the kit that one uses.
"""

import re
from collections.abc import Iterator

from farmkit.documents import MARK, Document
from farmkit.repository import TOP, dependencies

DOCUMENTS = ("PROVED", "ARCHITECTURE", "CHANGES")

CRATE = re.compile(r"wf_\w+|wfarm")
NAME = re.compile(r"\w+(?:::\w+)*!?")
PATH = re.compile(r"[\w./-]+\.(?:rt|antt|md|txt|py|conf|script)|[\w./-]+/[\w./-]*")
EXPORT = re.compile(r"^pub use ((?:\w+::)*)(?:\{([^}]*)\}|(\w+(?: as \w+)?));", re.MULTILINE)
OWNER = re.compile(r"^(?:impl\b.*?|pub trait )(\w+)(?:<[^{]*)? (?:where .*)?\{|^impl\b.* for (\w+)")
PUBLIC = re.compile(r"^pub (?:fn|const|struct|enum|trait|type) (\w+)", re.MULTILINE)
METHOD = re.compile(r"^    (?:pub )?fn (\w+)")
DEFINED = (
    re.compile(r"(?:fn|struct|enum|trait|type|const|mod|macro_rules!|ensures|requires|ghost|let|record|data"
               r"|case) (\w+)"), re.compile(r"^\s+(?:pub )?(\w+)(?:[,({:]| \{| :|$)", re.MULTILINE),
    re.compile(r"^\s*(?:(?:unfoldable|abbrev) )?(?:pub )?(\w+) :", re.MULTILINE), re.compile(r'"(\w+)"'))
# A word in capitals stands for any of a kind, as in `specs/BLOCK.antt`.
PLACEHOLDERS = ("BLOCK", "NAME")
# Words of the command line, of HTTP and of the kit, which no crate here defines.
OUTER = {"main", "src", "specs", "proofs", "text"}


class Crate:
    """What a crate defines, and what of it others can name."""

    def __init__(self, name: str) -> None:
        self.name, self.folder = name, TOP / "crates" / name
        library = self.folder / "src" / "lib.rt"
        code = re.sub(r"//[^\n]*", "", library.read_text(encoding="utf-8")) if library.exists() else ""
        self.roots = {it.split(" as ")[-1].strip(): path.partition("::")[0]
                      for path, several, one in EXPORT.findall(code)
                      for it in (several or one).split(",") if it.strip()}
        self.roots |= dict.fromkeys(PUBLIC.findall(code), "")
        self.methods: dict[str, set[str]] = {}
        self.words, self.theorems = set[str](), set[str]()
        self.aliases: dict[str, str] = {}
        for file in sorted([*self.folder.glob("src/**/*.rt"), *self.folder.glob("specs/**/*.antt"),
                            *self.folder.glob("proofs/*.antt")]):
            text = file.read_text(encoding="utf-8")
            self.words.update(*(it.findall(text) for it in DEFINED))
            if file.suffix == ".rt":
                self.note_methods(text)
                self.aliases |= dict(re.findall(r"^pub type (\w+)(?:<[^=]*>)? = (\w+)", text, re.MULTILINE))
            elif "specs" in file.parts:
                self.theorems |= set(re.findall(r"^\s*pub (\w+) :", text, re.MULTILINE))

    def note_methods(self, text: str) -> None:
        """Notes the methods of each type and trait of a file, by the type's name."""
        owner = None
        for line in re.sub(r"<[^<>\n]*(?:<[^<>\n]*(?:<[^<>\n]*>[^<>\n]*)*>[^<>\n]*)*>", "", text).split("\n"):
            if found := OWNER.match(line):
                owner = found[2] or found[1]
            elif owner and (method := METHOD.match(line)):
                self.methods.setdefault(owner, set()).add(method[1])

    def has_call(self, name: str, every: "dict[str, Crate]") -> bool:
        """Whether a call, a theorem or a type of this name can be reached from another crate."""
        owner, _, method = name.rpartition("::")
        types = [owner] if owner else [it for it in self.roots if it[0].isupper()]
        if not owner and (name in self.roots or name in self.theorems):
            return True
        return any(method in crate.methods.get(crate.aliases.get(it, it), ()) for it in types
                   if it in self.roots
                   for crate in (self, *(every[at] for at in every if at == self.roots[it])))


def unreachable(line: str, every: dict[str, Crate]) -> Iterator[str]:
    """The names of calls in a row of a table of PROVED that can't be reached."""
    cells = line.split("|")
    crates = [every[it] for it in CRATE.findall(cells[1]) if it in every]
    for found in MARK.finditer(cells[3]):
        if found[1] in every:
            crates = [every[found[1]]]
        elif cells[3][found.start() - 1] == "(":
            if not any(found[1] in it.words for it in crates):
                yield found[1]
        elif not any(it.has_call(found[1], every) for it in crates):
            yield found[1]


def is_there(path: str, crates: list[str]) -> bool:
    """Whether a file or a folder is there: from the top, or in one of these crates, or in any if none."""
    places = [TOP, *(TOP / "crates" / it for it in crates or dependencies())]
    return any((place / path.strip("/")).exists() or "/" not in path and any(place.rglob(path))
               for place in places)


def undefined(line: str, crates: list[str], words: set[str]) -> Iterator[str]:
    """What a line names and nothing defines. Its crates are added to those of the lines above it."""
    marks = MARK.findall(line)
    crates += [it for mark in marks for it in CRATE.findall(mark) if it not in crates]
    for mark in marks:
        if any(it in mark for it in PLACEHOLDERS):
            continue
        if PATH.fullmatch(mark):
            if not is_there(mark, crates):
                yield mark
        elif NAME.fullmatch(mark) and not all(it in words for it in mark.rstrip("!").split("::")):
            yield mark


def missing() -> Iterator[tuple[str, int, str, str]]:
    """Each name in the documents that isn't there, with the document and the line."""
    every = {it: Crate(it) for it in dependencies()}
    crates_used = set(every).union(*dependencies().values())
    words = (OUTER | crates_used).union(*(it.words for it in every.values()))
    proved = (TOP / "docs" / "PROVED.md").read_text(encoding="utf-8")
    for name in sorted(crates_used - set(re.findall(r"\w+", " ".join(MARK.findall(proved))))):
        if not name.startswith("wf_test_"):
            yield "PROVED", 0, name, "isn't named there"
    for document in DOCUMENTS:
        crates: list[str] = []
        calls = False
        for number, line in Document(TOP / "docs" / f"{document}.md").outside_code():
            if line.startswith("|") and "Calls; theorems" in line:
                calls = True
            elif not line.startswith("|"):
                calls, crates = False, []
            for name in (unreachable(line, every) if calls and CRATE.search(line.split("|")[1]) else ()):
                yield document, number, name, "can't be reached"
            for name in undefined(line, crates, words):
                yield document, number, name, "isn't there"
