"""Mapfiles and queries that are wrong in some way, made from right ones and from a grammar; each depends on
the draw alone."""

import random
from collections.abc import Callable, Sequence

from farmkit.repository import EXAMPLES

NUMBERS = ("0", "-1", "1", "16", "17", "64", "65", "255", "256", "1.5", "1e8", "1e9", "-100000000",
           "100000000.000001", "1e-999", "1e999", "00000000000000000000", "99999999999999999999",
           "0.1234567890123456789012345", ".", "-", "+", "5.", "x", '"3"', "NaN", "1e")
TEXTS = ('""', '"a"', "'T'", '"it\'s"', "END", '"END"', '"a,b"', "/re", '"/re"', "ITEMS=k", '"items=k,l"',
         "#", '"#ff00aa"', '"#ff00a"', "init=epsg:4326", '"INIT=epsg:3857"', "POINT", '"', "'", "/*", "*/",
         "\\", "[a]", "(1)", "{a,b}", "\ufffe", "é", "東京", "\x00", "\ufeff")
WORDS = ("MAP NAME EXTENT PROJECTION WEB METADATA LAYER TYPE CLASSITEM LABELITEM PROCESSING CLASS EXPRESSION "
         "STYLE COLOR OUTLINECOLOR WIDTH SIZE LABEL POSITION PRIORITY FORCE BUFFER FEATURE POINTS ITEMS TEXT "
         "END STATUS UNITS IMAGECOLOR INCLUDE SYMBOL DATA GROUP TEMPLATE").split()
# what a list may hold, between commas
LISTED = ("", "a", " b", "k l", "'", '"', "#", "/*", "é", "x;y", "[a]")
SOUND = ('"a"', '"b"', '"k"', '"a b"', '"x;y"', '"k,l"')
# what each block may have: a block, or a keyword with its arguments, each a number from one to another, one
# of some words, a text, or an expression
GRAMMAR = {
    "LAYER": "CLASSITEM text; LABELITEM text",
    "CLASS": "NAME text; EXPRESSION expression; STYLE; STYLE; LABEL",
    "STYLE": "COLOR 0..255 0..255 0..255; OUTLINECOLOR 0..255 0..255 0..255; WIDTH 1..16; SIZE 1..64",
    "LABEL": "COLOR 0..255 0..255 0..255; SIZE TINY|SMALL|MEDIUM|LARGE|GIANT|giant; POSITION "
             "UL|UC|UR|CL|CC|CR|LL|LC|LR|cc; PRIORITY 1..10; FORCE TRUE|FALSE; BUFFER 0..9",
    "FEATURE": "POINTS; ITEMS text; TEXT text",
}


class Maps:
    def __init__(self, draw: random.Random) -> None:
        self.draw = draw
        self.errors: float = 0.01
        self.whole = [path.read_bytes() for path in sorted(EXAMPLES.glob("*.map"))]

    def next(self) -> bytes:
        """One mapfile: of one of the examples or of the grammar, mutated up to eight times."""
        text = self.draw.choice(self.whole) if self.draw.random() < 0.5 else self.made().encode()
        for _ in range(self.draw.choice((0, 0, 1, 1, 1, 2, 4, 8))):
            text = self.draw.choice((self.overwritten, self.cut, self.doubled, self.words, self.numbers,
                                     self.spliced, self.grown))(text)
        return text

    def span(self, text: bytes, most: int = 200) -> tuple[int, int]:
        begin = self.draw.randrange(len(text) + 1)
        return begin, min(len(text), begin + self.draw.randrange(1, most))

    def overwritten(self, text: bytes) -> bytes:
        changed = bytearray(text)
        for _ in range(self.draw.randrange(1, 4) if changed else 0):
            byte = self.draw.choice((self.draw.randrange(256), self.draw.choice(b"\"'#\\/*\0\n END0")))
            changed[self.draw.randrange(len(changed))] = byte
        return bytes(changed)

    def cut(self, text: bytes) -> bytes:
        begin, end = self.span(text)
        return text[:begin] + (text[end:] if self.draw.random() < 0.7 else b"")

    def doubled(self, text: bytes) -> bytes:
        """A piece comes again, up to 2,000 times."""
        begin, end = self.span(text)
        return text[:end] + text[begin:end] * min(self.draw.choice((1, 1, 2, 20, 2_000)),
                                                  100_000 // (end - begin + 1)) + text[end:]

    def spaced(self, text: bytes, choices: Sequence[str], share: float) -> bytes:
        pieces = text.split(b" ")
        for _ in range(1 + int(len(pieces) * share)):
            pieces[self.draw.randrange(len(pieces))] = self.draw.choice(choices).encode()
        return b" ".join(pieces)

    def words(self, text: bytes) -> bytes:
        return self.spaced(text, self.draw.choice((WORDS, TEXTS)), self.draw.choice((0, 0, 0.05)))

    def numbers(self, text: bytes) -> bytes:
        """Words become numbers, many of them at a limit."""
        return self.spaced(text, NUMBERS, self.draw.choice((0, 0, 0.05)))

    def spliced(self, text: bytes) -> bytes:
        """The beginning of this map and the end of another."""
        other = self.draw.choice(self.whole)
        return text[:self.span(text)[0]] + other[self.span(other)[0]:]

    def grown(self, text: bytes) -> bytes:
        """White space, a comment or a text as long as a mapfile may be, or longer."""
        begin = self.draw.randrange(len(text) + 1)
        more = self.draw.choice((b" ", b"\n", b"x", b"# ", b"/*", b"\xc3", b'"' + b"y" * 1_000 + b'" '))
        return text[:begin] + more * (self.draw.choice((10, 1_000, 131_072, 140_000))
                                      // len(more)) + text[begin:]

    # The grammar, with an error now and then.

    def errs(self) -> bool:
        return self.draw.random() < self.errors

    def word(self, word: str) -> str:
        return word + "X" if self.errs() else word.lower() if self.draw.random() < 0.1 else word

    def argument(self, form: str) -> str:
        low, dots, high = form.partition("..")
        if self.errs():
            return self.draw.choice(NUMBERS if dots else TEXTS)
        if form == "expression" and self.draw.random() < 0.5:
            count = self.draw.choice((0, 1, 2, 3, 1_000))
            texts = ",".join(self.draw.choice(TEXTS if self.errs() else LISTED) for _ in range(count))
            return "{" + texts + ("" if self.errs() else "}")
        if form in ("text", "expression"):
            return self.draw.choice(SOUND)
        return str(self.draw.randint(int(low), int(high))) if dots else self.draw.choice(form.split("|"))

    def item(self, form: str) -> str:
        """A keyword with its arguments, or a block."""
        word, *forms = form.split()
        return " ".join([self.word(word), *map(self.argument, forms)]) if forms else self.block(word)

    def block(self, word: str, first: str = "", last: str = "") -> str:
        if word == "POINTS":
            count = 1 if self.errs() else self.draw.choice((3, 4, 5, 50))
            inside = [self.argument("-9..9") for _ in range(2 * count)]
        else:
            items = GRAMMAR[word].split("; ")
            inside = [self.item(it) for it in self.draw.sample(items, self.draw.randint(0, len(items)))]
        return " ".join([self.word(word), first, *inside, last, "" if self.errs() else "END"])

    def several(self, counts: Sequence[int], make: Callable[[int], str]) -> str:
        return " ".join(make(number) for number in range(self.draw.choice(counts)))

    def layer(self, number: int) -> str:
        head = f'NAME l{number} {self.item("TYPE POINT|LINE|POLYGON|point")} PROCESSING "ITEMS=k,l"'
        classes = self.several((0, 1, 1, 2, 3), lambda _: self.block("CLASS"))
        features = self.several((0, 1, 3, 10), lambda _: self.block("FEATURE", self.block("POINTS")))
        return self.block("LAYER", head, f"{classes} {features}")

    def made(self) -> str:
        self.errors = self.draw.choice((0, 0, 0.01))
        extent = self.item("EXTENT -9..0 -9..0 1..9 1..9")
        code = self.argument("4326|3857|3857")
        layers = self.several((1, 1, 2, 3, 0), self.layer)
        return (f'{self.word("MAP")} {self.item("NAME text")} {extent} PROJECTION "init=epsg:{code}" END '
                f"{layers}{'' if self.errs() else ' END'}")


VALUES = {
    "SERVICE": ("WMS", "wms", "WFS"),
    "VERSION": ("1.3.0", "1.1.1", "1.3"),
    "REQUEST": ("GetMap", "GetCapabilities", "GetFeatureInfo", "getmap"),
    "LAYERS": ("l0", "roads", "sq", "a", "l0,l1,l2", ",", ",".join(["l0"] * 64), ",".join(["l0"] * 65)),
    "STYLES": ("", "default", "fancy", ",", ",".join(["default"] * 64)),
    "CRS": ("EPSG:3857", "EPSG:4326", "CRS:84", "EPSG:1"),
    "WIDTH": ("1", "4", "256", "1024", "1025", "0", "99999999999999999999", "0000256"),
    "HEIGHT": ("1", "4", "256", "1024", "1025", "0", "99999999999999999999", "0000256"),
    "FORMAT": ("image/x-portable-pixmap", "image/png"),
    "MAPSEQ": ("0", "1", "2", "4096", "4097", "99999999999999999999"),
    "UPDATESEQUENCE": ("0", "1", "2", "abc", ""),
    "BGCOLOR": ("0xFFFFFF", "0x000000", "0XaBcDeF", "0x12345", "red"),
}


class Queries:
    def __init__(self, draw: random.Random) -> None:
        self.draw = draw

    def box(self) -> str:
        """A box: of the map, a tile's, huge, tiny, inverted, or of odd numbers."""
        low, high = self.draw.choice(((0, 4), (-9, 9), (-100_000_000, 100_000_000), (0, 0.001), (4, 0),
                                      (0, 9)))
        sides = [str(low), str(low), str(high), str(high)]
        if self.draw.random() < 0.2:
            sides[self.draw.randrange(4)] = self.draw.choice(NUMBERS)
        return ",".join(sides[:self.draw.choice((4, 4, 4, 4, 4, 3))] + (["1"] if self.draw.random() < 0.02
                                                                        else []))

    def next(self) -> str:
        """A query: mostly a right one of GetMap with a few values changed, left out, repeated or broken."""
        right = {"VERSION": "1.3.0", "REQUEST": "GetMap", "LAYERS": "l0", "STYLES": "", "CRS": "EPSG:3857",
                 "BBOX": self.box(), "WIDTH": self.draw.choice(("4", "64", "256", "1024")),
                 "HEIGHT": self.draw.choice(("4", "64", "256", "1024")), "FORMAT": "image/x-portable-pixmap"}
        pairs = list(right.items())
        for _ in range(self.draw.choice((0, 1, 1, 2, 3))):
            name = self.draw.choice(tuple(VALUES))
            pairs.insert(self.draw.randrange(len(pairs) + 1) * (self.draw.random() < 0.5),
                         (name, self.draw.choice(VALUES[name])))
        if self.draw.random() < 0.3:
            del pairs[self.draw.randrange(len(pairs))]
        return self.broken("&".join(f"{name}={value}" for name, value in pairs))

    def broken(self, query: str) -> str:
        """The query, in three of ten with characters changed, added or cut; without NUL."""
        if self.draw.random() < 0.7:
            return query
        at = self.draw.randrange(len(query) + 1)
        more = self.draw.choice(("%", "%zz", "%00", "%ff", "+", "&", "=", ";", "é", "&" * 5_000, "x" * 10_000,
                                 "%41" * 2_000, query))
        return query[:at] + more + query[at + self.draw.choice((0, 1, 10)):]
