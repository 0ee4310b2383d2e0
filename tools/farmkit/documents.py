"""The documents of the repository: their links, headings, code marks and tables, and what there is that they
may name."""

import os
import pathlib
import re
from collections.abc import Iterator

from farmkit.repository import TOP

MARK = re.compile(r"`([^`\n]+)`")
LINK = re.compile(r"\]\(([^)#\s]*)(?:#([^)]*))?\)")
# a document by a link, a code mark or its name, and behind it a section of it in quotes
SECTION = re.compile(r'(?:\]\(([\w./-]+\.md)\)|`([\w./-]+\.md)`|\b(README|CONTRIBUTING)), "([^"]+)"')
SECTION_OF = re.compile(r'"([^"]+)" of (?:\[[^]]*\]\(([\w./-]+\.md)\)|`?([\w./-]+\.md)\b)')
# a section of the document itself
OWN_SECTION = re.compile(r'(?:\(|\b(?:see|under|what|or) )"([A-Z][^"]+)"')
# a document that a text of another kind names
NAMED = re.compile(r"(?<![\w./-])(?:docs/|bench/|examples/)?[A-Z]{4,}\.md\b")
SUFFIXES = "antt conf css edit html js map md py rt script service sh toml txt xml yaml yml"
FILE = re.compile(rf"[\w.-]+(?:/[\w.-]+)*\.(?:{SUFFIXES.replace(' ', '|')})|\w[\w.-]*(?:/[\w.-]+)*/")
# a path from the top, also within a command
FROM_TOP = re.compile(r"(?<![\w./-])(?:tools|bench|docs|examples|crates)/[\w./-]*\w")
TEXTS = (".py", ".rt", ".antt", ".conf", ".service", ".yml", ".yaml", ".toml", ".js", ".html", ".c")
# a word in capitals stands for any of a kind, as in `specs/BLOCK.antt`
PLACEHOLDER = re.compile(r"\b(?:BLOCK|NAME|DIR|FILE|CRATE)\b")
LEFT_OUT = {".git", "out", "unlanded", "__pycache__", ".mypy_cache"}


def paths(top: pathlib.Path = TOP) -> Iterator[str]:
    """The files and folders of the repository, from the top."""
    for folder, folders, files in os.walk(top):
        folders[:] = [name for name in folders if name not in LEFT_OUT]
        for name in (*folders, *files):
            yield os.path.relpath(os.path.join(folder, name), top)


def ends_of(every: Iterator[str]) -> set[str]:
    """How paths end: `src/lib.rt` and `lib.rt` of `crates/wf_text/src/lib.rt`, and that path itself."""
    return {path[at:] for path in every for at in (0, *(slash.end() for slash in re.finditer("/", path)))}


def documents() -> list[pathlib.Path]:
    return [TOP / path for path in sorted(paths()) if path.endswith(".md") and "/must-fail/" not in path]


class Document:
    def __init__(self, path: pathlib.Path) -> None:
        self.path = path
        self.lines = path.read_text(encoding="utf-8").splitlines()
        self.prose = [line for _, line in self.outside_code()]

    def outside_code(self) -> Iterator[tuple[int, str]]:
        """The lines that stand outside blocks of code, with their numbers."""
        is_code = False
        for number, line in enumerate(self.lines, 1):
            if line.lstrip().startswith("```"):
                is_code = not is_code
            elif not is_code:
                yield number, line

    @property
    def name(self) -> str:
        return str(self.path.relative_to(TOP)) if self.path.is_relative_to(TOP) else self.path.name

    def headings(self) -> set[str]:
        found = (re.fullmatch(r"#+ (.*)", line) for line in self.prose)
        return {it[1].replace("`", "").strip() for it in found if it}

    def anchors(self) -> set[str]:
        """What a link to a heading says of it."""
        return {re.sub(r"[^\w\- ]", "", it.lower()).replace(" ", "-") for it in self.headings()}

    def files(self) -> Iterator[str]:
        """The files and folders that it names between backticks."""
        for line in self.prose:
            for mark in MARK.findall(line):
                if FILE.fullmatch(mark) and not PLACEHOLDER.search(mark) and not mark.startswith("out/"):
                    yield mark

    def paths_in_commands(self) -> Iterator[str]:
        """The paths from the top that stand within its commands."""
        code = [line for line in self.lines if line not in self.prose]
        for text in (*code, *(mark for line in self.prose for mark in MARK.findall(line) if " " in mark)):
            for path in FROM_TOP.findall(text):
                if "/out/" not in path and not PLACEHOLDER.search(path):
                    yield path

    def rows(self) -> Iterator[tuple[tuple[str, ...], list[str]]]:
        """Each row of a table, with the heads of its columns behind the first one, which names the rows."""
        heads: tuple[str, ...] = ()
        for line in self.prose:
            cells = [cell.strip() for cell in line.strip().strip("|").split("|")]
            if not line.startswith("|"):
                heads = ()
            elif not heads:
                heads = tuple(cells[1:])
            elif not set(line) <= set("|-: "):
                yield heads, cells


def lost_links(document: Document) -> Iterator[str]:
    """Its links that lead nowhere, and those to a heading that isn't there."""
    for target, anchor in links_of(document):
        file = document.path.parent / target if target else document.path
        if not file.exists():
            yield f"{target} isn't there"
        elif anchor and file.suffix == ".md" and anchor not in Document(file).anchors():
            yield f"{target}#{anchor}: no such heading"


def links_of(document: Document) -> list[tuple[str, str]]:
    """Its links, each with the heading that it names, but for those to other places."""
    return [it for line in document.lines for it in LINK.findall(line) if "://" not in it[0] and any(it)]


def sections_of(document: Document) -> Iterator[tuple[pathlib.Path, str]]:
    """The sections that it names in quotes, each with its document."""
    text = "\n".join(document.prose)
    for link, mark, name, section in SECTION.findall(text):
        yield document.path.parent / link if link else TOP / (mark or f"{name}.md"), section
    for section, link, mark in SECTION_OF.findall(text):
        yield document.path.parent / link if link else TOP / mark, section
    for section in OWN_SECTION.findall(text):
        yield document.path, section.replace("`", "")


def lost_sections(document: Document) -> Iterator[str]:
    """The sections that it names in quotes, and that aren't there."""
    for file, section in sections_of(document):
        if file.exists() and not any(it == section or it.startswith(f"{section}: ")
                                     for it in Document(file).headings()):
            yield f'{file.name} has no section "{section}"'


def texts() -> list[pathlib.Path]:
    """The texts of the repository that aren't documents or tests, of the kinds whose comments name one."""
    return [TOP / path for path in sorted(paths()) if path.endswith(TEXTS) and "/tests/" not in path]


def lost_in_text(path: pathlib.Path) -> Iterator[str]:
    """The documents that a text names and that aren't there, and such sections of theirs."""
    text = re.sub(r"\n\s*(?://[/!]?|--|#|\*)? ?", " ", path.read_text(encoding="utf-8"))
    for found in NAMED.finditer(text):
        file = next((it for it in (TOP / found[0], TOP / "docs" / found[0]) if it.exists()), None)
        section = re.match(r',? "([A-Z][^"]+)"', text[found.end():])
        if file is None:
            yield f"{found[0]} isn't there"
        elif section and section[1] not in Document(file).headings():
            yield f'{found[0]} has no section "{section[1]}"'
