"""The keywords of docs/MAPFILES.md beside those of the program, block by block."""

import re

from farmkit.documents import Document
from farmkit.repository import TOP

from .case import answer

PAGE = TOP / "docs" / "MAPFILES.md"
# Each block with the keywords that lead into it, and a map that has each keyword of each.
BEFORE = {
    "MAP": "MAP", "WEB": "MAP WEB", "LAYER": "MAP LAYER", "CLASS": "MAP LAYER CLASS", "STYLE": "MAP LAYER CLASS STYLE",
    "LABEL": "MAP LAYER CLASS LABEL", "FEATURE": "MAP LAYER FEATURE"}
WHOLE = """
MAP NAME "a" EXTENT 0 0 4 4 PROJECTION "init=epsg:4326" END
  SIZE 400 400 IMAGECOLOR 1 2 3 UNITS dd STATUS on IMAGETYPE png SHAPEPATH "."
  WEB METADATA "wms_title" "a" "wms_abstract" "b" "wms_onlineresource" "http://a/?" "wms_fees" "c" END IMAGEPATH "/a" IMAGEURL "/b" END
  LAYER NAME "p" TYPE POINT CLASSITEM "use" LABELITEM "n" PROCESSING "ITEMS=use,n" STATUS on UNITS dd TEMPLATE "c"
    METADATA "wms_title" "b" END
    CLASS NAME "c" EXPRESSION {a,b} STYLE COLOR 1 2 3 OUTLINECOLOR "#040506" WIDTH 16 SIZE 64 END
      LABEL COLOR 0 0 0 SIZE GIANT POSITION LR PRIORITY 10 FORCE TRUE BUFFER 64 TYPE BITMAP END END
    FEATURE POINTS 1 1 END ITEMS "a;x" TEXT "y" END
  END
END
"""


def written():
    """The keywords of each block in the page's table."""
    found, block = {}, None
    for heads, cells in Document(PAGE).rows():
        if heads == ("Keyword", "Argument", "Default"):
            block = cells[0] or block
            found.setdefault(block, set()).update(re.findall(r"\b[A-Z]{3,}\b", cells[1]))
    return found


def keywords_of_the_page(folder, program, keep):
    """The page's table has the keywords that `wfarm check` names in each block, where another word stands, and no other."""
    page = written()
    for block, before in BEFORE.items():
        said = answer(program, f"{before} OTHER".encode(), "check").stdout.decode()
        allowed = re.search(r"Found OTHER\. Allowed: (.*), or the END of ", said)
        if apart := page.get(block, set()) ^ set(allowed[1].split(", ") if allowed else ()):
            return f"{block}: {', '.join(sorted(apart))} are written or named alone"
    return None


def a_map_of_each_keyword(folder, program, keep):
    """A map with each keyword of the page is one that a farm publishes."""
    lacking = set().union(*written().values()) - set(re.findall(r"\b[A-Z]{3,}\b", WHOLE))
    if lacking - {"END"}:
        return f"the map has no {', '.join(sorted(lacking))}"
    return answer(program, WHOLE.encode(), "check").stdout.decode() or None
