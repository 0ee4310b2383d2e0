"""A MapServer mapfile as its author wrote it: blocks of keywords, each with its file and line. What it means is for
MapServer's library; this is for reports of what became of each keyword, so nothing that is written gets lost unseen.
"""

import re
from dataclasses import dataclass, field
from itertools import takewhile
from pathlib import Path

from .errors import MapError

TOKEN = re.compile(
    r"""(?P<space>[ \t\r\n]+|(?:\#|//)[^\n]*|/\*.*?\*/)
    |"(?P<double>(?:[^"\\]|\\.)*)"i?|'(?P<single>(?:[^'\\]|\\.)*)'i?
    |(?P<list>\[[^\]]*\]|\([^\n]*\)|\{[^\n]*\}|/[^*/][^/]*/i?(?![\w./=-]))|(?P<word>[^\s"'\#]+)""",
    re.DOTALL | re.VERBOSE)
INNER = {
    "MAP": "LAYER WEB LEGEND SCALEBAR QUERYMAP REFERENCE OUTPUTFORMAT SYMBOL",
    "LAYER": "CLASS FEATURE METADATA VALIDATION GRID JOIN CLUSTER COMPOSITE SCALETOKEN CONNECTIONOPTIONS",
    "CLASS": "STYLE LABEL LEADER METADATA VALIDATION",
    "LABEL": "STYLE LEADER",
    "LEADER": "STYLE",
    "WEB": "METADATA VALIDATION",
    "LEGEND": "LABEL",
    "SCALEBAR": "LABEL",
    "SCALETOKEN": "VALUES",
}  # the blocks that may stand in a block
PAIRS = {"METADATA", "VALIDATION", "CONNECTIONOPTIONS", "VALUES"}  # blocks of keys and values
LISTS = {"PROJECTION", "POINTS", "PATTERN"}  # keywords whose words go on to END
DEEPEST = 5  # files that include one another, as in MapServer
LONGEST = 60  # letters of a keyword in a report


@dataclass(eq=False)
class Keyword:
    """A keyword with its words, or a key of METADATA with its value. What becomes of it is of account.py."""

    name: str
    words: list
    block: str
    place: str
    fate: int = 0

    def __str__(self):
        text = " ".join([self.name, *(f'"{word}"' if self.block in PAIRS else word for word in self.words)])
        text = text if len(text) <= LONGEST else text[: LONGEST - 3] + ".."
        if self.block in PAIRS:
            return f"{self.block} {text}"
        return text if self.block in ("MAP", "LAYER", "WEB") else f"{text} of {self.block}"


@dataclass(eq=False)
class Block:
    name: str
    place: str
    keywords: list = field(default_factory=list)
    blocks: list = field(default_factory=list)

    def __str__(self):
        name = self.keyword("NAME")
        return f"{self.name} {name.words[0]}" if name else self.name

    def all(self, name):
        """The blocks of the name in it, in order."""
        return [block for block in self.blocks if block.name == name]

    def keyword(self, name):
        """Its keyword of the name, the last one as for MapServer, or None."""
        return next((keyword for keyword in reversed(self.keywords) if keyword.name == name), None)

    def whole(self):
        """Its keywords, those of the blocks in it too. Shapes aren't keywords."""
        yield from self.keywords
        for block in self.blocks:
            if block.name != "FEATURE":
                yield from block.whole()


def tokens(path, folder, depth=0):
    """(text, the same in capitals if it is a bare word, place) of each token, those of INCLUDE in its stead."""
    if depth > DEEPEST:
        raise MapError(f"{path}: files include one another too deeply")
    try:
        text = path.read_bytes().decode("utf-8-sig")
    except UnicodeDecodeError:
        text = path.read_bytes().decode("iso-8859-1")
    place, line, is_name = 0, 1, False
    while place < len(text):
        found = TOKEN.match(text, place)
        if found is None:
            raise MapError(f"{path.name}, line {line}: {text[place : place + 20]!r} isn't understood")
        kind, whole = found.lastgroup, found[0]
        if is_name and kind != "space":
            yield from tokens(folder / found[kind], folder, depth + 1)
            is_name = False
        elif kind == "word" and whole.upper() == "INCLUDE":
            is_name = True
        elif kind != "space":
            string = re.sub(r"\\(.)", r"\1", found[kind]) if kind in ("double", "single") else whole
            yield string, whole.upper() if kind == "word" else "", f"{path.name}, line {line}"
        line += whole.count("\n")
        place = found.end()


class Reader:
    """Reads blocks from tokens."""

    def __init__(self, path):
        self.waiting = list(tokens(path, path.parent))[::-1]

    def block(self, name, place):
        result = Block(name, place)
        inner = INNER.get(name, "").split()
        for text, word, place in self.until_end(name):
            if word in inner:
                result.blocks.append(self.block(word, place))
            elif name in PAIRS:
                result.keywords.append(Keyword(text, [self.next(name)[0]], name, place))
            else:
                result.keywords.append(Keyword(text.upper(), self.words(text.upper()), name, place))
        return result

    def until_end(self, name):
        return takewhile(lambda token: token[1] != "END", iter(lambda: self.next(name), None))

    def words(self, name):
        """The words of a keyword: those before END, or one, of CONFIG two, and what can't begin another."""
        if name in LISTS:
            return [text for text, _, _ in self.until_end(name)]
        words = [self.next(name)[0] for _ in range(2 if name == "CONFIG" else 1)]
        while self.waiting and not self.waiting[-1][1][:1].isalpha():
            words.append(self.waiting.pop()[0])
        return words

    def next(self, name):
        if not self.waiting:
            raise MapError(f"the mapfile ends within {name}")
        return self.waiting.pop()


def written(path):
    """The block MAP of the mapfile, with the files that it includes."""
    reader = Reader(Path(path))
    while reader.waiting:
        _, word, place = reader.waiting.pop()
        if word == "MAP":
            return reader.block(word, place)
    raise MapError("it has no MAP")
