"""What becomes of each keyword of a mapfile: it is carried over, changed, left out, or has no effect on a farm's answers.
A keyword that no table here has is left out, so that none is lost unseen. docs/MAPFILES.md has the tables as rows.
"""

from collections import Counter

CARRIED, IDLE, CHANGED, LEFT_OUT = range(4)  # the greater is said where several are true of a keyword
SCALES = "MINSCALEDENOM MAXSCALEDENOM MINSCALE MAXSCALE"
KEPT = {
    "MAP": "NAME EXTENT PROJECTION SHAPEPATH RESOLUTION DEFRESOLUTION IMAGECOLOR",
    "WEB": "",
    "LAYER": "NAME TYPE STATUS DATA CONNECTION CONNECTIONTYPE PROJECTION CLASSITEM CLASSGROUP LABELITEM FILTER FILTERITEM TILEINDEX TILEITEM "
    "TILESRS ENCODING MAXFEATURES STYLEITEM PROCESSING TRANSFORM",
    "CLASS": "NAME EXPRESSION TEXT STATUS GROUP",
    "STYLE": "COLOR OUTLINECOLOR WIDTH SIZE OUTLINEWIDTH SYMBOL MINWIDTH MAXWIDTH MINSIZE MAXSIZE",
    "LABEL": "COLOR SIZE POSITION PRIORITY FORCE BUFFER TEXT MINSIZE MAXSIZE",
    "WEB METADATA": "wms_title ows_title wms_abstract ows_abstract wms_onlineresource ows_onlineresource",
    "LAYER METADATA": "wms_title ows_title",
}  # carried, unless something else is told of them
WITHOUT_EFFECT = {
    "MAP": "SIZE UNITS STATUS DEBUG FONTSET SYMBOLSET SYMBOL",
    "WEB": "IMAGEPATH IMAGEURL TEMPPATH LOG",
    "LAYER": "UNITS DEBUG",
    "CLASS": "DEBUG",
    "LABEL": "TYPE",
}  # on the answers to a request; symbols and fonts are told where a style or label names them
AT_ONE_SCALE = {
    "LAYER": f"{SCALES} MINGEOWIDTH MAXGEOWIDTH LABELMINSCALEDENOM LABELMAXSCALEDENOM LABELMINSCALE LABELMAXSCALE SYMBOLSCALEDENOM "
    "SYMBOLSCALE SIZEUNITS",
    "CLASS": SCALES,
    "STYLE": SCALES,
    "LABEL": SCALES,
}  # a farm's map is the same at every scale
READ = {"VALIDATION", "CONNECTIONOPTIONS"}  # blocks that MapServer's library reads for the data
READ_IN = {"MAP WEB", "WEB METADATA", "LAYER METADATA", "LAYER CLASS", "CLASS STYLE", "CLASS LABEL"}  # whose keywords are told of one by one


class Teller:
    """Tells of one layer, or of the map. Its `add` and `lost` are those of Notes."""

    def __init__(self, notes, name):
        self.notes, self.name, self.told = notes, name, set()

    def add(self, what, place="", count=1, fate="changed"):
        self.notes.changes += count
        self.notes.add(f"{self.name}: {fate}: {what}", place, count)

    def lost(self, what, place="", count=1):
        self.add(what, place, count, "left out")

    def change(self, keyword, what):
        """Tells once that the keyword was changed."""
        if keyword is None or (keyword, what) not in self.told:
            self.told.add((keyword, what))
            self.add(f"{keyword}{what}" if keyword else what.lstrip(": "), keyword.place if keyword else "")
        mark([keyword], CHANGED)

    def drop(self, keyword, why=""):
        """Tells once that the keyword was left out."""
        if keyword is not None and (keyword, None) not in self.told:
            self.told.add((keyword, None))
            self.lost(f"{keyword}{why}", keyword.place)
        mark([keyword], LEFT_OUT)


def mark(keywords, fate):
    """Says what became of the keywords, unless worse was said of them."""
    for keyword in filter(None, keywords):
        keyword.fate = max(keyword.fate, fate)


def has(table, block, name):
    return name in table.get(block, "").split()


def tell(block, teller, scale, name=None):
    """Tells of the keywords of a block, and of those in it, but of layers and of what was told of before. The name is the
    block's in the tables."""
    name = name or block.name
    for keyword in block.keywords:
        word = keyword.name.lower() if block.name == "METADATA" else keyword.name
        if has(AT_ONE_SCALE, name, word):
            teller.change(keyword, f": it is drawn at every scale as at 1:{scale:,.0f}")
        elif name == "VALIDATION" and word.lower().startswith("default_"):
            teller.change(keyword, ": a request can't choose another")
        elif has(WITHOUT_EFFECT, name, word):
            mark([keyword], IDLE)
        elif not has(KEPT, name, word) and name not in READ:
            teller.drop(keyword)
    for inner in (inner for inner in block.blocks if inner not in teller.told):
        if f"{name} {inner.name}" in READ_IN or inner.name in READ:
            tell(inner, teller, scale, f"{name} METADATA" if inner.name == "METADATA" else None)
        elif has(WITHOUT_EFFECT, name, inner.name):
            mark(inner.whole(), IDLE)
        elif inner.name not in ("LAYER", "FEATURE"):
            drop_block(inner, teller)


def drop_block(block, teller, why=""):
    """Tells once that a block was left out, and all in it."""
    if block not in teller.told:
        teller.told.update([block, *block.blocks])
        teller.lost(f"{block}{why}", block.place)
        mark(block.whole(), LEFT_OUT)


def counted(root):
    """How many keywords became what."""
    count = Counter(keyword.fate for keyword in root.whole())
    text = f"of {sum(count.values()):,} keywords {count[CARRIED]:,} were carried, {count[CHANGED]:,} changed, {count[LEFT_OUT]:,} left out"
    return text + (f", {count[IDLE]:,} have no effect here" if count[IDLE] else "")


def idle(root):
    """The names of the keywords without effect."""
    idle = [keyword for keyword in root.whole() if keyword.fate == IDLE]
    return ", ".join(dict.fromkeys("SYMBOL" if keyword.block == "SYMBOL" else keyword.name for keyword in idle))
