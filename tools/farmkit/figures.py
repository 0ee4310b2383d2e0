"""Figures that stand in two places: rows of tables that tell the same, names with a version, and the limits
of docs/LIMITS.md beside the constants of the code."""

import re
from collections.abc import Iterator

from farmkit.documents import Document
from farmkit.repository import TOP

# what has to be the same wherever it stands
ALIKE = (re.compile(r"\brattle-kit-\w+"), re.compile(r"\bwfarm_[\d.]+\+\d+_amd64\.deb"))
CONSTANT = re.compile(r"^(?:pub(?:\(crate\))? )?const (\w+): \w+ = ([\d_]+);", re.MULTILINE)
# the constants whose values a row of docs/LIMITS.md has, in its order
LIMITS = {
    "mapfile": "wf_mapfile::MOST_MAPFILE_BYTES",
    "canonical text of a map": "wf_spelling::MOST_CANON_BYTES",
    "a text of a map": "wf_text::MOST_TEXT_BYTES",
    "layers; classes per layer; styles per class":
        "wf_def::MOST_LAYERS wf_def::MOST_CLASSES wf_def::MOST_STYLES",
    "features; points of a map": "wf_def::MOST_FEATURES wf_def::MOST_POINTS",
    "picture": "wf_geometry::MOST_PIXELS wf_geometry::MOST_PIXELS",
    "nodes": "wf_ballot::NODES",
    "sequences in the life of a farm": "wf_ballot::SEQUENCES",
    "request's head": "wf_http::MOST_HEAD_BYTES wf_http::MOST_FIELDS",
    "request's body": "wf_http::MOST_BODY_BYTES",
    "script": "wf_script::MOST_SCRIPT_BYTES wf_script::MOST_LINES",
    "deliveries of a `pump` in a script": "wf_delivery::MOST_DELIVERIES",
    "tape that `wfarm tape` lists": "wf_listing::MOST_TAPE_BYTES",
}


def differing_rows(every: list[Document]) -> Iterator[str]:
    """Rows of one name that differ between tables of equal heads: both tell figures of one run."""
    seen: dict[tuple[tuple[str, ...], str], tuple[Document, list[str]]] = {}
    for document in every:
        for heads, cells in document.rows():
            if not any(re.search(r"\d", cell) for cell in cells[1:]):
                continue
            other, before = seen.setdefault((heads, cells[0]), (document, cells))
            if before != cells and other is not document:
                yield f"{document.name}: {' | '.join(cells)}; {other.name} has {' | '.join(before)}"


def differing_names(every: list[Document]) -> Iterator[str]:
    """Names with a version of which two documents have different ones."""
    for pattern in ALIKE:
        found = [(it.name, name) for it in every for name in pattern.findall("\n".join(it.lines))]
        for document, name in found:
            if name != found[0][1]:
                yield f"{document}: {name}; another document has {found[0][1]}"


def constants(crate: str) -> dict[str, int]:
    return {name: int(value) for file in sorted((TOP / "crates" / crate / "src").rglob("*.rt"))
            for name, value in CONSTANT.findall(file.read_text(encoding="utf-8"))}


def differing_limits(limits: Document) -> Iterator[str]:
    """Rows of docs/LIMITS.md whose numbers aren't those of the code."""
    rows = {cells[0]: cells[1] for _, cells in limits.rows()}
    for row, names in LIMITS.items():
        told = [int(it.replace(",", "")) for it in re.findall(r"\d[\d,]*", rows.get(row, ""))]
        for place, path in enumerate(names.split()):
            crate, name = path.split("::")
            value = constants(crate).get(name)
            if value is None or told[place:place + 1] != [value]:
                yield f"{limits.name}, {row}: {path} is {value}"
