"""Texts and numbers as a mapfile of wfarm holds them (docs/MAPFILES.md, "Tokens")."""

import re
import string
import unicodedata

from .errors import MapError

MOST_TEXT = 1_000  # bytes of one text
MOST_COORDINATE = 100_000_000  # magnitude of a number
UNHELD = r"[\x00-\x08\x0b\x0c\x0e-\x1f\\\ud800-\udfff\ufffe\uffff]"  # what no text holds
# Double quotes always become apostrophes, since a text with both kinds has no spelling, and equal values must stay equal.
REPLACED = (
    (r"\r\n|[\r\n\t]", " ", "line feeds and tabs of a text became spaces"),
    (r"\\", "/", "a backslash became a slash"),
    ('"', "'", "double quotes became apostrophes"),
    (UNHELD, "", "characters that no text holds were left out"))

# What NFKD leaves as it is. Labels draw small letters as capitals, so the case is kept.
ASCII = str.maketrans({
    "ß": "ss", "ẞ": "SS", "ø": "o", "Ø": "O", "æ": "ae", "Æ": "AE", "œ": "oe", "Œ": "OE", "ł": "l", "Ł": "L", "đ": "d",
    "Đ": "D", "ð": "d", "Ð": "D", "þ": "th", "Þ": "TH", "ı": "i", "ħ": "h", "Ħ": "H", "ŋ": "ng", "Ŋ": "NG", "ŧ": "t",
    "Ŧ": "T", "'": " ", "’": " ", "‘": " ", "/": "-", "_": "-", "–": "-", "—": "-", "‐": "-", "‑": "-", "−": "-",
    ",": " ", ";": " ", "(": " ", ")": " ", "·": ".", "\t": " "})
DRAWN = {*string.ascii_letters, *string.digits, *"-. "}  # other characters of a label are filled boxes


def plain(text, notes, place):
    """The text with what no text of a mapfile holds replaced, and each kind of replacement noted."""
    try:
        text.encode()
    except UnicodeEncodeError:  # bytes that aren't UTF-8 are lone surrogates in it
        notes.add("a text that isn't UTF-8 was read as ISO-8859-1", place)
        text = text.encode("utf-8", "surrogateescape").decode("iso-8859-1")
    for pattern, new, what in REPLACED:
        if re.search(pattern, text):
            notes.add(what, place)
            text = re.sub(pattern, new, text)
    return text


def name(text, notes, place):
    """The text as a name in a list that commas separate."""
    return plain(text, notes, place).replace(",", "_")


def value(text, notes, place):
    """The text as one value among those that semicolons separate."""
    if ";" in text:
        notes.add("a semicolon in a value became a comma", place)
        text = text.replace(";", ",")
    return plain(text, notes, place)


def quoted(text, what):
    """The text as the string of a mapfile, or an error if no string holds it."""
    size = len(text.encode("utf-8", "surrogatepass"))
    if size > MOST_TEXT:
        raise MapError(f"{what}: {size} bytes, over the limit of {MOST_TEXT}: shorten it, or keep fewer attributes")
    if re.search(UNHELD, text) or ('"' in text and "'" in text):
        raise MapError(f"{what}: {text!r} can't be written as a text of a mapfile")
    return f"'{text}'" if '"' in text else f'"{text}"'


def number(units, digits):
    """The text of units / 10^digits, without zeros at the end of its fraction."""
    if abs(units) > MOST_COORDINATE * 10**digits:
        raise MapError(f"the coordinate {units / 10**digits:g} is over the limit of {MOST_COORDINATE}: give the data's own system")
    whole, fraction = divmod(abs(units), 10**digits)
    tail = f"{fraction:0{digits}d}".rstrip("0") if digits else ""
    return ("-" if units < 0 else "") + (f"{whole}.{tail}" if tail else str(whole))


def ascii_letters(text):
    """The text in letters that labels draw, as far as there are any (é as e, ß as ss)."""
    letters = unicodedata.normalize("NFKD", text.translate(ASCII))
    return " ".join("".join(character for character in letters if not unicodedata.combining(character)).split())


def label(text, in_ascii, notes, place):
    """The text as a label, in letters that are drawn if asked. Labels with characters that are drawn as boxes are noted."""
    text = plain(text, notes, place)
    if in_ascii and ascii_letters(text) != text:
        notes.add("a label is in other letters, by --ascii", f"{place}: {text}")
        text = ascii_letters(text)
    if not DRAWN.issuperset(text):
        cure = "" if in_ascii else "; --ascii writes é as e, ß as ss, and so on"
        notes.add(f"a label has letters that are drawn as boxes{cure}", f"{place}: {text}")
    return text
