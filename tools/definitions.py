#!/usr/bin/env python3
"""Prints an index of the words that contracts cite: each crate, lowest first, with the first sentence of its
first page, and each file of its `specs/`, with what that is about and the words that it defines.

    python3 tools/definitions.py              prints the index
    python3 tools/definitions.py --all [WORD] prints each definition with its comment, or those whose name
                                              holds WORD
    python3 tools/definitions.py --check      says which words of public clauses no comment explains, which
                                              stand in several crates, and which names in docs/PROVED.md,
                                              ARCHITECTURE.md and CHANGES.md aren't there

All of it is in comments, so each definition is said once: the one at the top of a file says what the file is
about, a line `-- ..` above a definition what that is.
"""

import graphlib
import re
import sys
from itertools import takewhile

from farmkit.command import parser
from farmkit.names import missing
from farmkit.repository import TOP, dependencies

DEFINED = re.compile(r"(?:(?:unfoldable|abbrev|opaque) )?pub (?!use )(?:(?:record|data) )?(\S+)")
# in a module, where what has neither word before it is a field
INNER = re.compile(r"  (?:(?:unfoldable|abbrev|opaque) pub|pub (?:record|data)) (\S+)")
TYPE = re.compile(r"^pub (?:struct|enum|trait) (\w+)", re.MULTILINE)
# words and types that may stand in several crates: most mean one thing at several layers
MOST_SHARED = 51

IMPORT = re.compile(r"ghost use Rattle\.(wf\w*)\.specs\.(?!declared\.\w)((?:\w+\.)*\w+)\.\{([^}]*)\}")
FUNCTION = re.compile(r"^[ ]*(pub (?:const )?fn|fn) (\w+)")
CLAUSE = re.compile(r"^\s+(requires|ensures)\b")


def imported(text):
    """The words of our own definitions that a file brings in, each with the crate and file that define it."""
    words = {}
    for crate, file, names in IMPORT.findall(text):
        for name in names.split(","):
            spelled = name.strip().split(" as ")
            words[spelled[-1].strip()] = f"{crate}/specs/{file.replace('.', '/')}.antt", spelled[0].strip()
    return words


def clauses(text):
    """Each public function, and each of an impl of a trait, with the text of its clauses."""
    inside_trait_impl, name, said = False, None, []
    for line in text.split("\n"):
        if re.match(r"^impl\b", line):
            inside_trait_impl = " for " in line
        if found := FUNCTION.match(line):
            name = found[2] if found[1].startswith("pub") or inside_trait_impl else None
            said = []
        elif name and (CLAUSE.match(line) or said and not re.match(r"^\s*\{\}?\s*$", line)):
            said.append(line)
        elif name and said:
            yield name, "\n".join(said)
            name = None


def about(lines):
    comment = takewhile(lambda line: line.startswith("--"), lines)
    return " ".join(filter(None, (line.lstrip("-").strip() for line in comment)))


def words_of(lines):
    """The public definitions of a file, each with the last comment above it."""
    found, said, is_open = [], {0: [], 2: []}, False
    for line in lines:
        deep = 2 if line.startswith("  ") else 0
        if line[deep:].startswith("--"):
            said[deep] = [*(said[deep] if is_open else []), line.strip("- ")]
            is_open = True
            continue
        is_open = False
        at = INNER.match(line) or DEFINED.match(line)
        if at and at[1] != "mod":
            found.append((at[1], " ".join(filter(None, said[deep]))))
        if line and not deep:
            said[2] = []
    return found


def files_of(crate):
    """The files of a crate's definitions, each with its text in lines."""
    every = sorted((TOP / "crates" / crate / "specs").rglob("*.antt"))
    return [(it, it.read_text(encoding="utf-8").splitlines()) for it in every if it.name != "Lib.antt"]


def sentence(crate):
    """The first sentence of a crate's first page."""
    source = TOP / "crates" / crate / "src"
    page = next(file for file in (source / "lib.rt", source / "main.rt") if file.exists())
    lines = re.match(r"(?://!? ?.*\n)+", page.read_text(encoding="utf-8"))[0].splitlines()
    return re.split(r"(?<=[.])(?: |$)", " ".join(line.lstrip("/! ") for line in lines), maxsplit=1)[0]


def section(crate):
    lines = [f"{crate}: {sentence(crate)}"]
    for file, text in files_of(crate):
        top, words = about(text), ", ".join(word for word, _ in words_of(text))
        lines.append(f"  {file.relative_to(TOP)}: {top[:1].upper() + top[1:]}".rstrip())
        lines += [f"    {words}"] if words else []
    return "\n".join(lines) + "\n"


def print_all(part):
    for crate in in_order():
        for file, text in files_of(crate):
            for word, said in words_of(text):
                if part in word:
                    print(f"{file.relative_to(TOP)}: {word}: {said or about(text)}")


def in_order():
    """The crates, each after those that it depends on."""
    every = dependencies()
    lower = {name: [low for low in lows if low in every] for name, lows in every.items()}
    return list(graphlib.TopologicalSorter(lower).static_order())


def unexplained():
    """The words of public clauses that no comment of their file explains."""
    said = {(f"{file.relative_to(TOP / 'crates')}", word): comment
            for crate in in_order() for file, text in files_of(crate) for word, comment in words_of(text)}
    found = {}
    for file in sorted((TOP / "crates").glob("*/src/**/*.rt")):
        text = file.read_text(encoding="utf-8")
        words = imported(text)
        for function, clause in clauses(text):
            clause = re.sub(r"//[^\n]*", "", clause)
            for word in set(re.findall(r"[^\s(){},;.λ]+", clause)) & words.keys():
                if said.get(words[word], "a case of a type") == "":
                    found.setdefault(words[word], f"{file.relative_to(TOP)}, {function}")
    return found


def shared():
    """The capitalized words of definitions, and the public types, that several crates have, with these."""
    homes = {}
    for crate in in_order():
        words = [word for _, text in files_of(crate) for word, _ in words_of(text) if word[0].isupper()]
        if not crate.startswith("wf_test_"):
            for file in (TOP / "crates" / crate / "src").rglob("*.rt"):
                words += [f"type {it}" for it in TYPE.findall(file.read_text(encoding="utf-8"))]
        for word in words:
            homes.setdefault(word, {})[crate] = None
    return {word: list(crates) for word, crates in homes.items() if len(crates) > 1}


def main() -> int:
    words = parser(__doc__)
    asked = words.add_mutually_exclusive_group()
    asked.add_argument("--all", nargs="?", const="", metavar="WORD", help="prints the definitions")
    asked.add_argument("--check", action="store_true", help="prints what is missing, and no index")
    given = words.parse_args()
    if given.all is not None:
        print_all(given.all)
        return 0
    if not given.check:
        print("\n".join(section(it) for it in in_order()), end="")
        return 0
    bare = unexplained()
    for (file, word), cited in sorted(bare.items()):
        print(f"crates/{file}: no comment explains {word}, which {cited} cites")
    gone = list(missing())
    for document, line, name, why in gone:
        print(f"docs/{document}.md{f', line {line}' if line else ''}: {name} {why}")
    both = shared()
    for word, crates in both.items() if len(both) > MOST_SHARED else ():
        print(f"{word} stands in {' and '.join(crates)}")
    print(f"{len(bare)} words without a comment, {len(gone)} names missing, {len(both)} words and types in "
          f"several crates, at most {MOST_SHARED} may be")
    return 1 if bare or gone or len(both) > MOST_SHARED else 0


if __name__ == "__main__":
    sys.exit(main())
