#!/usr/bin/python3
"""Tries the page of examples/viewer in a real browser, over the built program: not in CI.

It serves the page by nginx with examples/nginx.conf (its port, certificate, publishers and folder changed),
opens it in headless Chromium, and looks at what it shows: each tile's pixels beside the farm's own bytes,
labels across borders, which node drew each tile, publishes, older sequences, errors, keyboard and window.
Between nginx and the farm stands a relay that counts connections, so that the tool knows for itself which
node answered. Then it looks at three nodes in processes of their own, of which one is ended and started
again, through examples/viewer/local.conf (`--nodes`: at these alone). With --wms it also looks at another WMS
1.3.0 through the page, such as MapServer (an address up to the query,
`http://127.0.0.1:8090/wms?map=county`). Screenshots go to the folder.

It needs Debian's nginx-light, libjs-leaflet, chromium, chromium-driver, python3-selenium and openssl.
"""

import base64
import itertools
import json
import pathlib
import re
import sys
import tempfile
import threading
import urllib.parse
import urllib.request
from functools import partial

from farmkit.command import add_slack, need, of_debian, program_parser
from farmkit.nginx import Nginx, changed
from farmkit.nodes import Nodes
from farmkit.processes import Farm
from farmkit.repository import EXAMPLES, TOP
from farmkit.trial import Trial, meanwhile
from farmkit.web import Listener, ask, connect, end_of, loopback, received

NODES = 3
# scripts for the page: its tiles as they are shown, and whether all are loaded
READ, LOADED = ((TOP / "tools" / "viewer" / name).read_text() for name in ("tiles.js", "loaded.js"))
# a value as it stands in an address
encoded = partial(urllib.parse.quote, safe="")
# keys as a WebDriver sends them
ARROW_LEFT, ARROW_RIGHT, ADD, SUBTRACT = "\ue012", "\ue014", "\ue025", "\ue027"
LABEL = bytes((1, 2, 3))  # the colour of labels in ACROSS
ACROSS = """MAP NAME "across" EXTENT 0 0 1024 1024 PROJECTION "init=epsg:3857" END WEB METADATA "wms_title" "Across %d" END END
LAYER NAME ground TYPE POLYGON CLASS STYLE COLOR %s OUTLINECOLOR 90 90 90 END END
FEATURE POINTS 60 60 960 100 900 900 500 700 100 960 60 60 END END END
LAYER NAME names TYPE POINT CLASS STYLE COLOR 200 0 0 SIZE 8 END LABEL COLOR 1 2 3 SIZE GIANT END END
FEATURE POINTS 512 512 END TEXT "Across four tiles" END FEATURE POINTS 256 300 END TEXT "and two" END END END"""
SQUARE_DEGREES = """MAP NAME "degrees" EXTENT 10 50 14 54 PROJECTION "init=epsg:4326" END
LAYER NAME ground TYPE POLYGON CLASS STYLE COLOR 90 160 90 END END FEATURE POINTS 10.2 50.2 13.9 50.5 12 53.7 END END END
END"""
TALL = """MAP NAME "tall" EXTENT 0 0 100 250 PROJECTION "init=epsg:3857" END
LAYER NAME ground TYPE POLYGON CLASS STYLE COLOR 90 90 190 END END FEATURE POINTS 10 10 90 10 50 240 END END END
END"""


class Relay(Listener):
    """Stands before a farm and counts its connections: node c mod n answers connection c."""

    def __init__(self, port):
        self.lock, self.behind = threading.Lock(), None
        self.aim(port)
        super().__init__()

    def aim(self, port):
        """At a farm that has had no connection yet."""
        with self.lock:
            self.target, self.count, self.asked = port, 0, []

    def serve(self, client):
        with client.makefile("rb") as sent:
            head = b"".join(itertools.takewhile(b"\r\n".__ne__, sent)) + b"\r\n"
            asked = head + sent.read((end_of(head) or len(head)) - len(head))
        path = asked.split(b" ", 2)[1].decode("latin-1")
        with self.lock:
            farm = connect(loopback(self.target), 60)
            node, self.count = self.count % NODES, self.count + 1
            self.asked.append((path, node))
        with farm:
            farm.sendall(asked)
            came = received(farm)
        if self.behind is not None:
            came = re.sub(rb"(\r\n\r\nnode %d published )\d" % self.behind, rb"\g<1>0", came, count=1)
        client.sendall(came)

    def ask(self, path, body=None):
        return ask(loopback(self.port), f"/{path}", body, 60)

    def drew(self, path):
        """The node that was asked last for this path, if one was."""
        return dict(self.asked).get(f"/{path}")


class PageNginx(Nginx):
    """nginx with examples/nginx.conf, its names changed."""

    def __init__(self, folder, relay, wms):
        super().__init__(folder)
        passed = f"location = /other {{ proxy_pass {(wms or '').partition('?')[0]}; }}\n    location / {{"
        self.start(self.site("nginx.conf", [
            ("https://maps\\.county\\.example", f"https://127\\.0\\.0\\.1:{self.port}"),
            ("allow 10.0.0.0/8", "allow 127.0.0.0/8"),
            ("/usr/share/wfarm/viewer", str(EXAMPLES / "viewer")),
            ("http://127.0.0.1:8080", f"http://127.0.0.1:{relay.port}"),
            *([("location / {", passed)] if wms else [])]))


class LocalNginx(Nginx):
    """nginx with examples/viewer/local.conf, its ports changed, and a log of what was asked."""

    def __init__(self, folder, nodes):
        super().__init__(folder, "http")
        self.start(changed("viewer/local.conf", (
            (":8081", f":{self.port}"), ("/tmp/wfarm-viewer", f"{folder}/local"),
            *((f"127.0.0.1:741{node.number}", node.clients) for node in nodes),
            ("root .;", f"root {EXAMPLES / 'viewer'};"),
            ("access_log off;", f"log_format asked $request_uri; access_log {folder}/asked asked;"))))

    def drew(self, path):
        """The node that was asked last for this path, if one was."""
        asked = re.findall(rf"(?m)^/node/(\d)/{re.escape(path)}$", (self.folder / "asked").read_text())
        return int(asked[-1]) if asked else None


class Page(Trial):
    """The page in a browser, and what was seen there. `own` gets a path's bytes from the server itself."""

    def __init__(self, browser, given, folder):
        super().__init__(given.slack)
        self.browser, self.shots, self.folder, self.own = browser, given.shots, folder, None
        self.run, self.element = browser.execute_script, partial(browser.find_element, "id")

    def text(self, name):
        return self.element(name).text

    def says(self, **texts):
        return all(self.text(name) == text for name, text in texts.items())

    def wait_for(self, what, seconds=8, **texts):
        self.wait(what, lambda: self.says(**texts), seconds)

    def set_to(self, name, value):
        self.run("const it = document.getElementById(arguments[0]); it.value = arguments[1]; "
                 "it.dispatchEvent(new Event('input'));it.dispatchEvent(new Event('change'))", name, value)

    def click(self, name):
        self.element(name).click()

    def loaded(self, name="left"):
        return self.run(LOADED, name)

    def tiles(self, name="left"):
        return json.loads(self.browser.execute_async_script(READ, name))

    def has(self, word, name="left"):
        """Whether every tile is there, and the query for them has this word."""
        return self.loaded(name) and word in self.tiles(name)[0]["path"]

    def unlike(self, tiles):
        """How many tiles have other pixels than the server's own answer."""
        return sum(base64.b64decode(it["rgb"]) != pixels_of(self.own(it["path"])) for it in tiles)

    def is_drawn(self, word="", name="left"):
        """Whether every tile is there, by a query with this word, and as the server's own answer."""
        return self.has(word, name) and not self.unlike(self.tiles(name))

    def see_pixels(self, whose, least=1):
        """Looks at all tiles beside the server's own answers: the tiles."""
        tiles = self.tiles()
        bad = self.unlike(tiles)
        good = len(tiles) - bad
        self.see(f"{good} tiles have the pixels of {whose}, {bad} don't", good >= least and not bad)
        return tiles

    def tint(self, what, seconds, is_tinted=True):
        """Tints the tiles by their nodes, or ends that."""
        self.click("tint")
        self.wait(what, lambda: self.loaded() and all(bool(it["by"]) == is_tinted for it in self.tiles()),
                  seconds)

    def nodes(self):
        return self.text("nodes").splitlines()

    def stand_at(self, sequence):
        """Whether each node is shown with this sequence."""
        return [it.split()[:4] for it in self.nodes()] == [["node", str(k), "published", str(sequence)]
                                                           for k in range(NODES)]

    def zoom(self, level):
        self.run("const it = state.maps.left.map; const [a, b, c] = extent();"
                 "it.setView([b + (c - a) / 2, (a + c) / 2], arguments[0], {animate: false})", level)

    def place(self):
        """The middle of the map, across, and its level."""
        return self.run("const it = state.maps.left.map; "
                        "return [Number(it.getCenter().lng.toFixed(3)), it.getZoom()]")

    def publish(self, name, text):
        """Publishes a file of this name and text."""
        (self.folder / name).write_text(text, encoding="utf-8")
        self.element("file").send_keys(str(self.folder / name))
        self.click("publish")

    def shoot(self, name):
        if self.shots:
            self.browser.save_screenshot(str(self.shots / f"{name}.png"))

    def errors(self):
        """What the console says, but for its own line on each answer that isn't 200 or doesn't come."""
        return [it["message"] for it in self.browser.get_log("browser")
                if "Failed to load resource" not in it["message"]]


def pixels_of(ppm):
    head = re.match(rb"P6\s+(\d+)\s+(\d+)\s+255\s", ppm)
    return ppm[head.end():] if head else None


def inside(tiles):
    """The tiles of level 2 in the square of the extent."""
    return [it for it in tiles if it["z"] == 2 and 0 <= it["x"] < 4 and 0 <= it["y"] < 4]


def together(tiles, side):
    """One picture of the tiles 0 to side - 1 in both directions."""
    by_place = {(it["x"], it["y"]): base64.b64decode(it["rgb"]) for it in tiles}
    return b"".join(by_place[x, y][768 * k:768 * (k + 1)]
                    for y in range(side) for k in range(256) for x in range(side))


def judged(tiles, seen):
    """Of tinted tiles: how many name the node that was seen, another one, and none."""
    true = sum(it["by"] == f"node {seen.drew(it['path'])}" for it in tiles)
    unknown = sum(re.fullmatch(r"node \d+", it["by"] or "") is None for it in tiles)
    return true, len(tiles) - true - unknown, unknown


def try_first_maps(page, relay):
    page.wait_for("nothing is published yet, and the page says so", 15, message="Nothing is published yet.")
    relay.ask("publish", (ACROSS % (1, "200 220 190")).encode())
    page.wait_for("a publish is seen", shown="1 of 1", title="Across 1")
    page.wait("every tile is there", page.loaded, 30)
    page.zoom(2)
    page.wait("and at level 2", page.loaded, 30)
    tiles = page.tiles()
    page.see(f"the sixteen tiles of the extent are there, of {len(tiles)}", len(inside(tiles)) == 16)
    page.see_pixels("the farm", 16)
    whole = pixels_of(page.own("wms?VERSION=1.3.0&REQUEST=GetMap&LAYERS=ground,names&STYLES=&CRS=EPSG:3857"
                               "&BBOX=0,0,1024,1024&WIDTH=1024&HEIGHT=1024&FORMAT=image/x-portable-pixmap"))
    page.see("the sixteen together are the picture of the whole extent", together(inside(tiles), 4) == whole)
    borders = [sum(whole[3 * (1024 * y + x):][:3] == LABEL for y in range(1024)) for x in (511, 512)]
    page.see(f"a label crosses the border between them ({borders[0]} and {borders[1]} of its pixels beside it)",
             min(borders) > 0)
    page.shoot("level-2")
    page.wait("three nodes stand at 1", lambda: page.stand_at(1), 8)


def try_renderers(page, relay):
    relay.asked.clear()
    page.tint("tiles are tinted by the node that drew them", 60)
    tiles = page.tiles()
    true, wrong, unknown = judged(tiles, relay)
    page.see(f"of {len(tiles)} tiles the node is right of {true}, wrong of {wrong}, unknown of {unknown}, by "
             f"{len(relay.asked)} connections", true == len(tiles))
    by = {(it["x"], it["y"]): it["by"] for it in tiles}
    page.see("all three nodes drew some, and neighbours are of different ones", len(set(by.values())) == NODES
             and all(by[x, y] != by.get((x + 1, y)) and by[x, y] != by.get((x, y + 1)) for x, y in by))
    path = re.sub(r"BBOX=[^&]*", "BBOX=0,0,1024,1024", inside(tiles)[0]["path"]).replace("256", "1024")
    page.see("tiles of three nodes together are one picture",
             together(inside(tiles), 4) == pixels_of(page.own(path)))
    page.shoot("renderers")
    with meanwhile(lambda: [relay.ask("status").status], 0.01):
        page.tint("the tint goes", 30, False)
        relay.asked.clear()
        page.tint("with another client that asks a hundred times a second", 120)
        true, wrong, unknown = judged(page.tiles(), relay)
    page.see(f"the node is right of {true} tiles, wrong of {wrong}, unknown of {unknown}", not wrong)
    page.tint("the tint goes again", 30, False)


def try_history(page, relay):
    relay.ask("publish", (ACROSS % (2, "230 150 120")).encode())
    page.wait_for("a second publish is seen", shown="2 of 2")
    page.wait("and its tiles", page.is_drawn, 30)
    page.element("sequence").send_keys(ARROW_LEFT)
    page.wait("the slider's left arrow shows the sequence before",
              lambda: page.says(shown="1 of 2") and page.is_drawn("MAPSEQ=1"), 30)
    page.set_to("other", 2)
    page.click("compare")
    page.wait("two sequences side by side", lambda: page.loaded("right") and page.loaded(), 30)
    page.see("the right one is the other sequence, pixel by pixel", page.is_drawn("MAPSEQ=2", "right"))
    page.run("state.maps.left.map.panBy([120, 40], {animate: false})")
    page.wait("both move together", lambda: page.run("const c = (id) => state.maps[id].map.getCenter(); "
                                                     "return c('left').distanceTo(c('right')) < 1"), 10)
    page.shoot("compared")
    page.click("compare")
    page.set_to("sequence", 2)
    page.wait("one map again", lambda: page.element("right").get_property("hidden") and page.loaded(), 10)


def try_publishing(page, nginx):
    def marked():
        return page.run("return document.querySelector('#where mark').textContent")

    page.publish("include.map", (EXAMPLES / "refused-include.map").read_text(encoding="utf-8"))
    page.wait("an error in a mapfile is said and marked", lambda: page.text("answer").startswith("M5 4: ")
              and "line 1" in page.text("answer") and marked() == "INCLUDE", 8)
    page.shoot("error")
    page.publish("cut.map", 'MAP\n  NAME "é"\n  EXTENT 0 0 4 x4\n')
    page.wait("an offset in bytes after letters of two bytes",
              lambda: "line 3" in page.text("answer") and marked() == "x4", 8)
    page.publish("long.map", "#" * 140_000)
    page.wait("a file that is too long", lambda: page.text("answer").startswith("The file is too long"), 8)
    page.publish("third.map", ACROSS % (3, "150 150 230"))
    page.wait("a map is accepted", lambda: "sequence 3" in page.text("answer"), 8)
    page.wait_for("and published, as the page says", answer="Published as sequence 3.", shown="3 of 3")
    page.see("a page of another site can't publish",
             nginx.ask("publish", b"MAP", Origin="https://elsewhere.example")[0] == 403)


def try_keyboard(page):
    held, before = page.element("left"), page.place()
    held.send_keys(ARROW_RIGHT)
    page.wait("an arrow key moves the map", lambda: page.place()[0] > before[0], 5)
    held.send_keys(ADD)
    page.wait("plus zooms", lambda: page.place()[1] == before[1] + 1, 5)
    held.send_keys(SUBTRACT)
    page.wait("minus zooms back", lambda: page.place()[1] == before[1], 5)
    for what, is_shown in (("the space bar takes a layer away", False), ("and back", True)):
        page.browser.find_element("css selector", "#layers input").send_keys(" ")
        page.wait(what, lambda: page.loaded() and ("ground" in page.tiles()[0]["path"]) == is_shown, 15)


def try_systems(page, relay):
    relay.ask("publish", SQUARE_DEGREES.encode())
    page.wait("a map in degrees is seen", lambda: page.says(shown="4 of 4") and page.loaded(), 8)
    pictures = {}
    for system in ("CRS:84", "EPSG:4326"):
        page.set_to("crs", system)
        page.zoom(2)
        page.wait(f"its tiles in {system}", lambda: page.has(f"CRS={encoded(system)}"), 30)
        pictures[system] = {(it["x"], it["y"], it["z"]): it["rgb"] for it in page.see_pixels("the farm", 16)}
    page.see("both systems have the same tiles", pictures["CRS:84"] == pictures["EPSG:4326"])
    page.set_to("sequence", 1)
    page.wait_for("an exception in place of a picture is a sentence", 15,
                  message="The server says: CRS is not offered.")
    page.set_to("sequence", 4)
    page.wait("which goes", lambda: page.says(message="") and page.loaded(), 15)


def try_odd_maps(page, relay):
    relay.ask("publish", TALL.encode())
    page.wait("an extent that isn't square is said",
              lambda: "2.50 times as high as wide" in page.text("note") and page.loaded(), 8)
    tiles = page.see_pixels("the farm")
    page.see("rows go on above the first square", min(it["y"] for it in tiles) < 0)
    relay.ask("publish", (EXAMPLES / "a.map").read_bytes())
    page.wait_for("a map without layers is said", message="This map has no layers.")
    relay.ask("publish", (ACROSS % (7, "200 200 90")).replace("NAME ground", "NAME soil").encode())
    page.wait("the next map", lambda: page.says(shown="7 of 7") and page.loaded(), 8)
    page.set_to("sequence", 5)
    page.wait("an older map with other layers is drawn with its own",
              lambda: page.is_drawn("LAYERS=ground&"), 15)
    page.set_to("sequence", 7)
    relay.behind = 2
    page.wait("a node that is behind is marked",
              lambda: any(re.match(r"node 2 published 0 .*\(behind\)$", it) for it in page.nodes()), 10)
    page.shoot("behind")
    relay.behind = None
    page.wait("until it isn't any more", lambda: "behind" not in page.text("nodes"), 10)


def try_window(page):
    page.browser.set_window_size(400, 800)
    page.wait("a narrow window has the map above the rest, and nothing beside it", lambda: page.run(
        "return document.querySelector('main').getBoundingClientRect().bottom <= "
        "document.querySelector('aside').getBoundingClientRect().top + 1"
        " && document.documentElement.scrollWidth <= innerWidth"), 8)
    page.wait("its tiles", page.loaded, 15)
    page.shoot("narrow")
    page.browser.set_window_size(1700, 1300)


def try_ends(page, farm, relay, program):
    farm.kill()
    page.wait_for("a farm that is gone is said to be", 12, message="The farm does not answer.")
    page.run("state.maps.left.map.panBy([600, 0], {animate: false})")
    page.shoot("gone")
    with Farm(program, 1_000_000, None, nodes=2) as again:
        relay.aim(again.port)
        page.wait_for("a farm that begins again with nothing is said to", 40,
                      message="Nothing is published yet.")
        page.wait("with two nodes, of which the third is gone", lambda: page.nodes()[-1].endswith("(gone)")
                  and page.text("nodes").count("published 0") == 2, 15)
        relay.ask("publish", SQUARE_DEGREES.encode())
        page.wait("and its first map is seen",
                  lambda: page.says(shown="1 of 1", message="") and page.loaded(), 8)


def try_nodes(page, folder, program):
    """Three nodes in processes of their own, each at an address of its own."""
    with Nodes(program, folder / "nodes") as nodes, LocalNginx(folder, nodes.each) as nginx:
        page.browser.get(f"{nginx.address}?nodes=node/0,node/1,node/2")
        look_at_all(page, nginx, nodes)
        look_at_two(page, nodes)
        look_at_links(page)


def look_at_all(page, nginx, nodes):
    """All nodes are there: each tile is asked at one that is known."""
    page.own = lambda path: nodes[0].ask(f"/{path}", seconds=60).body
    page.wait("three nodes are seen at 0", lambda: page.stand_at(0), 30)
    nodes.publish(0, (ACROSS % (1, "200 220 190")).encode())
    page.wait("a publish is seen", lambda: page.says(shown="1 of 1") and page.loaded(), 15)
    page.zoom(2)
    page.wait("tiles at level 2", page.loaded, 30)
    page.tint("each is tinted by its node", 60)
    tiles = page.tiles()
    true, _, _ = judged(tiles, nginx)
    page.see(f"of {len(tiles)} tiles the node is right of {true}", true == len(tiles))
    page.see("all three drew some", {it["by"] for it in tiles} == {f"node {k}" for k in range(NODES)})
    page.see_pixels("node 0")
    page.shoot("nodes")


def look_at_two(page, nodes):
    page.own = lambda path: nodes[1].ask(f"/{path}", seconds=60).body
    nodes[2].kill()
    page.wait("an ended node is shown as gone, with the time",
              lambda: re.search(r"\(gone since [\d:]+", page.nodes()[2]) is not None, 15)
    page.zoom(3)
    page.wait("its tiles come from the others",
              lambda: page.loaded() and {it["by"] for it in page.tiles()} == {"node 0", "node 1"}, 60)
    page.see_pixels("node 1")
    page.publish("next.map", ACROSS % (2, "230 150 120"))
    page.wait_for("two nodes publish", 20, answer="Published as sequence 2.", shown="2 of 2")
    page.shoot("gone")
    nodes[2].start()
    page.wait("the node is back, and at 2", lambda: "gone" not in page.text("nodes")
              and page.nodes()[2].startswith("node 2 published 2 "), 30)
    page.zoom(2)  # tiles that are shown already aren't asked again
    page.wait("and draws again", lambda: page.loaded()
              and {it["by"] for it in page.tiles()} == {f"node {k}" for k in range(NODES)}, 60)


def look_at_links(page):
    """Two sequences side by side, and the address of what is shown."""
    numbers = {"left-number": "sequence 2", "right-number": "sequence 1"}
    page.click("tint")
    page.set_to("other", 1)
    page.click("compare")
    page.wait("both maps carry their sequence", lambda: page.loaded("right") and page.says(**numbers), 30)
    before = page.place()
    page.browser.get(page.run("return document.getElementById('link').href"))
    page.browser.refresh()
    page.wait("the link shows the same",
              lambda: page.loaded("right") and page.says(**numbers) and page.place() == before, 40)


def try_other(page, nginx, wms):
    base, _, query = wms.partition("?")
    page.own = lambda path: urllib.request.urlopen(base + path[len("other"):], timeout=60).read()
    page.browser.get(f"{nginx.address}?wms={encoded(f'other?{query}&' if query else 'other')}")
    page.wait("another WMS: its tiles are there", page.loaded, 20)
    page.see("its title is " + page.text("title"), page.text("title") not in ("", "wfarm"))
    page.see("what only a farm has isn't shown",
             not any(page.element(it).is_displayed() for it in ("history", "farm", "publishing")))
    options = "return [...document.getElementById(arguments[0]).options].map((it) => it.value)"
    formats = page.run(options, "format")
    for media in formats[:2]:
        page.set_to("format", media)
        page.wait(f"tiles as {media}", lambda: page.has(f"FORMAT={encoded(media)}"), 30)
        if "pixmap" in media:
            page.see_pixels("the server")
        else:
            page.see("they aren't empty", coloured(page.tiles()) > 0)
        page.shoot("other-" + re.sub(r"\W", "-", media))
    page.set_to("format", formats[0])
    for system in page.run(options, "crs"):
        page.set_to("crs", system)
        page.wait(f"its tiles in {system}", lambda: page.has(f"CRS={encoded(system)}"), 30)
        drawn = coloured(page.tiles())
        page.see(f"something is drawn on {drawn} of them", drawn > 0)
        page.shoot("other-" + re.sub(r"\W", "-", system))


def coloured(tiles):
    """How many tiles have something on them."""
    return sum(len(set(base64.b64decode(it["rgb"]))) > 8 for it in tiles)


def open_browser():
    webdriver = of_debian("selenium.webdriver")
    options = webdriver.ChromeOptions()
    for word in "headless=new no-sandbox disable-gpu ignore-certificate-errors window-size=1700,1300".split():
        options.add_argument(f"--{word}")
    options.set_capability("goog:loggingPrefs", {"browser": "ALL"})
    service = webdriver.chrome.service.Service("/usr/bin/chromedriver")
    browser = webdriver.Chrome(options=options, service=service)
    browser.set_script_timeout(120)
    return browser


def try_farm(page, folder, given):
    with Farm(given.program, 1_000_000, None) as farm:
        relay = Relay(farm.port)
        page.own = lambda path: relay.ask(path).body
        with PageNginx(folder, relay, given.wms) as nginx:
            page.browser.get(nginx.address)
            try_first_maps(page, relay)
            try_renderers(page, relay)
            try_history(page, relay)
            try_publishing(page, nginx)
            try_keyboard(page)
            try_systems(page, relay)
            try_odd_maps(page, relay)
            try_window(page)
            try_ends(page, farm, relay, given.program)
            if given.wms:
                try_other(page, nginx, given.wms)


def main():
    words = program_parser(__doc__)
    words.add_argument("--nodes", action="store_true", help="looks at nodes in processes of their own alone")
    words.add_argument("--shots", type=pathlib.Path, metavar="FOLDER", help="where screenshots go")
    add_slack(words)
    words.add_argument("--wms", metavar="ADDRESS", help="another WMS")
    given = words.parse_args()
    if given.shots:
        given.shots.mkdir(parents=True, exist_ok=True)
    need("chromium", "chromedriver", "nginx", "openssl")
    with tempfile.TemporaryDirectory(prefix="wfarm-viewer-") as name:
        folder = pathlib.Path(name)
        page = Page(open_browser(), given, folder)
        try:
            if not given.nodes:
                try_farm(page, folder, given)
            try_nodes(page, folder, given.program)
            said = page.errors()
            page.see("nothing in the console: " + "; ".join(said[:3]), not said)
        finally:
            page.browser.quit()
    return page.conclude()


if __name__ == "__main__":
    sys.exit(main())
