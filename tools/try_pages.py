#!/usr/bin/env python3
"""Walks through docs/MACHINES.md on three hosts made anew and a fourth one, with the commands that stand
there: the beginning, maps, nginx with the page, a renderer without a vote, an upgrade, a machine that is lost
and one whose node moves, all three while clients ask, a second farm on the same machines, and beginning anew
behind the same nginx.

Each host is a Debian of its own that `systemd-nspawn` boots, with the address that the page gives it. DIR is
a Debian made before (debootstrap with the packages of INCLUDED), copied from; else one is made. The upgrade
is from the older program, where one is given. Wants root, debootstrap, systemd-container, iproute2.
"""

import pathlib
import re
import shutil
import subprocess
import sys
import tempfile
import time

import make_deb
from farmkit.processes import run
from farmkit.repository import TOP
from farmkit.trial import meanwhile
from try_deb import debian, need_here, package, words
from try_units import Container

INCLUDED = ("systemd,systemd-sysv,dbus,python3,python3-minimal,adduser,procps,iproute2,nginx-light,curl,sudo,"
            "openssl,libjs-leaflet")
PAGE = TOP / "docs" / "MACHINES.md"
BRIDGE = "wfarmpages"
NODES = ("10.0.0.1", "10.0.0.2", "10.0.0.3")
RENDERER, MOVED = "10.0.0.11", "10.0.0.4"
SITE = "https://maps.county.example"
OTHER_SITE = "https://roads.county.example"
SIZE = "&STYLES=&CRS=EPSG:4326&WIDTH=64&HEIGHT=64&FORMAT=image/x-portable-pixmap"
ROADS = "wms?VERSION=1.3.0&REQUEST=GetMap&LAYERS=roads&BBOX=51.5,-3.25,52,-2.75" + SIZE
LAKES = "wms?VERSION=1.3.0&REQUEST=GetMap&LAYERS=lakes&BBOX=46,8,48,10" + SIZE
# where a line of `wfarmctl status` says how a process is
STATE_COLUMN = 65
# seconds after its start after which a node certainly agrees to a replacement
AGREES_AFTER = 15
EXAMPLES = "/usr/share/wfarm/examples"


class Machine(Container):
    def __init__(self, path, address):
        super().__init__(path)
        self.address = address

    def begin(self):
        """Boots it, and gives it its address; whether that went well."""
        if not self.boot(f"--network-bridge={BRIDGE}", f"--machine={self.path.parent.name}"):
            return False
        self.inside("ip", "address", "add", f"{self.address}/24", "dev", "host0")
        return self.inside("ip", "link", "set", "host0", "up").returncode == 0

    def do(self, command):
        """Does a command of the page, as a shell's line, in root's folder."""
        ran = self.inside("bash", "-c", f"cd /root; {command}")
        self.see(f"{self.address}: {command}", ran.returncode == 0, ran.stderr.strip()[-300:])
        return ran.stdout

    def file(self, path):
        return self.path / path.lstrip("/")

    def edit(self, path, *changes):
        """Changes a file, as the page says: each of these pairs' first, a pattern, becomes its second."""
        text = self.file(path).read_text()
        for pattern, new in changes:
            self.see(f"{self.address}: {path} has {pattern}", re.search(pattern, text))
            text = re.sub(pattern, new, text)
        self.file(path).write_text(text)


def blocks_of_page():
    """The blocks of commands under each heading of the page."""
    found = {}
    for section in re.split(r"(?m)^## ", PAGE.read_text())[1:]:
        heading, body = section.split("\n", 1)
        found[heading] = [[line.split("  #")[0].strip() for line in block.strip().splitlines()]
                          for block in re.findall(r"```sh\n(.*?)```", body, re.DOTALL)]
    return found


class Walk:
    def __init__(self, folder, root, program, older):
        self.folder, self.root, self.page = pathlib.Path(folder), root, blocks_of_page()
        self.old, self.new = package(older, "0.0.9", folder), package(program, make_deb.version_now(), folder)
        self.machines, self.nodes = [], []

    def boot(self):
        """Whether all hosts are up."""
        self.nodes, self.renderer = [self.host(address) for address in NODES], self.host(RENDERER)
        self.first = self.nodes[0]
        return not self.wrong()

    def host(self, address):
        """A host made anew at an address, with the packages on its disk."""
        path = self.folder / f"host-{len(self.machines)}" / "root"
        path.parent.mkdir()
        subprocess.run(["cp", "-a", str(self.root), str(path)], check=True)
        (path / "etc/hostname").write_text(f"{path.parent.name}\n")
        for each in (self.old, self.new):
            shutil.copy(each, path / "root")
        machine = Machine(path, address)
        self.machines.append(machine)
        machine.see(f"the host {address} is up", machine.begin())
        return machine

    def wrong(self):
        return sum(machine.wrong for machine in self.machines)

    def as_node(self, command, number):
        """A command for the first node, as another one's."""
        for word in ("node-0", "--id 0", "wfarm-node@0", "roads-0", "second-0"):
            command = command.replace(word, f"{word[:-1]}{number}")
        return command

    def follow(self, machine, heading, block=0, number=0):
        """Does the commands of a block, as those of a node: what the last one writes."""
        return [machine.do(self.as_node(command, number)) for command in self.page[heading][block]][-1]

    def install(self, machine, package_file):
        """The page's installation, of this package."""
        machine.do(re.sub(r"wfarm_\S+\.deb", package_file.name, self.page["Begin"][0][0]))

    def status_is_well(self, farm="/etc/wfarm/nodes"):
        return lambda: self.first.inside("wfarmctl", "--farm", farm, "status").returncode == 0

    def status_lines(self):
        return self.first.inside("wfarmctl", "status").stdout.splitlines()

    def prepare(self, machine, number, package_file, makes_folder=True):
        """"Begin" up to the start of the node, perhaps without its folder."""
        self.install(machine, package_file)
        for command in self.page["Begin"][0][1:-1]:
            if makes_folder or "/var/lib" not in command:
                machine.do(self.as_node(command, number))
        machine.edit(f"/etc/wfarm/node-{number}.conf",
                     (r"(?m)^(HTTP|ADMIN|MORE)=(.*)10\.0\.0\.1:", rf"\1=\g<2>{machine.address}:"))

    def begin(self):
        """"Begin", on each machine."""
        for number, machine in enumerate(self.nodes):
            self.prepare(machine, number, self.old)
        for number, machine in enumerate(self.nodes):
            machine.do(self.as_node(self.page["Begin"][0][-1], number))
        self.first.wait("wfarmctl status finds all well", self.status_is_well())

    def publish(self):
        """"Publish, and go back"."""
        publish, history, get, diff, rollback = self.page["Publish, and go back"][0]
        for name in ("county", "roads"):
            self.first.do(f"cp {EXAMPLES}/{name}.map /root/county.map")
            told = self.first.do(publish)
            self.first.see(f"it is told what was published: {told.strip()}", told.startswith("published "))
        told = self.first.do(history)
        self.first.see(f"how many are left: {told.splitlines()[-1]}", told.endswith("4,094 of 4,096 left\n"))
        self.first.do(get.replace("41", "1"))
        self.first.do(diff.replace("41 42", "1 2"))
        told = self.first.do(rollback.replace("41", "1"))
        self.first.see(f"the map is published again: {told.strip()}", told.startswith("published 3"))
        self.publish_roads("again")
        self.first.do("wfarmctl export /root/export && wfarmctl verify /root/export")

    def publish_roads(self, title):
        self.first.do(f"sed 's/\"wms_title\".*/\"wms_title\" \"Roads {title}\"/' {EXAMPLES}/roads.map > "
                      f"/root/roads.map && wfarmctl publish /root/roads.map")

    def serve_behind_nginx(self):
        """nginx of the example, on the renderer's host, with a certificate of its own."""
        machine = self.renderer
        self.install(machine, self.old)
        made = ("openssl req -x509 -newkey rsa:2048 -nodes -days 2 -subj /CN=maps.county.example -keyout "
                "/etc/ssl/maps.county.example.key -out")
        machine.do(f"{made} /etc/ssl/maps.county.example.pem 2>&1 && cp /etc/ssl/maps.county.example.pem "
                   f"/etc/ssl/county-publishers.pem")
        self.follow(machine, "Begin", 1)
        machine.wait("clients get pictures by nginx", self.has_picture)
        parts = [self.fetched(part) for part in ("", "viewer.js", "leaflet/leaflet.js", "node/2/status")]
        machine.see("and the page, with what it needs", all(parts) and parts[3].startswith(b"node 2 "))

    def has_picture(self, query=ROADS, site=SITE):
        return self.fetched(query, site).startswith(b"P6")

    def fetched(self, path, site=SITE):
        """What a client gets by nginx; nothing where that fails."""
        host = site.removeprefix("https://")
        asked = ["curl", "--silent", "--insecure", "--fail", "--max-time", "20", "--resolve",
                 f"{host}:443:{RENDERER}", f"{site}/{path}"]
        entering = ["nsenter", "--target", self.renderer.leader, "--net"]
        return subprocess.run([*entering, *asked], capture_output=True, check=False).stdout

    def add_renderer(self):
        """"Renderers without a vote": one is added, dropped, and added again."""
        machine, heading = self.renderer, "Renderers without a vote"
        for number in (0, 1, 0):
            self.follow(machine, heading, number)
            if number == 0:
                self.first.edit("/etc/wfarm/nodes", (r"(?m)^(# )?replica", "replica"))
                self.first.wait("wfarmctl status finds the replica well", self.status_is_well())
                told = self.first.inside("wfarmctl", "status").stdout
                machine.see("the replica is in the table", "replica" in told, told)
            machine.wait("clients get pictures by nginx", self.has_picture)

    def upgrade(self):
        """"Upgrade": one machine after the other, while clients ask; what status shows meanwhile."""
        for number, machine in enumerate((*self.nodes, self.renderer)):
            with meanwhile(lambda: [line[STATE_COLUMN:].strip() for line in self.status_lines()[1:]]) as seen:
                self.install(machine, self.new)
                machine.wait("all are well", self.status_is_well())
            told = machine.inside("wfarm", "--version").stdout.strip()
            machine.see(f"after the upgrade of {'the replica' if number == 3 else f'node {number}'} "
                        f"({told}); status showed {', '.join(sorted(seen))}",
                        all(re.match("ok|unreachable|behind by|no majority|halted", state) for state in seen))
            self.publish_roads(number)

    def while_clients_ask(self, step):
        """Goes a step, in which no client may get an error."""
        with meanwhile(lambda: [self.has_picture()]) as answers:
            step()
        self.renderer.see(f"clients got {answers[True]} pictures meanwhile, and {answers[False]} errors",
                          answers[True] and not answers[False])

    def lose_machine(self):
        """"A machine is lost": the second one, with its disk."""
        heading = "A machine is lost"
        self.nodes[1].stop()
        new = self.nodes[1] = self.host(NODES[1])
        self.prepare(new, 1, self.new, makes_folder=False)
        for number, machine in enumerate(self.nodes):
            machine.edit(f"/etc/wfarm/node-{number}.conf", (r"(?m)^MORE=.*", r"\g<0> --replace-allowed"))
        for number in (0, 2):
            self.nodes[number].do(f"systemctl restart wfarm-node@{number}")
        self.follow(new, heading)
        health = ["curl", "--silent", f"{NODES[1]}:9090/healthz"]
        new.wait("it joins", lambda: new.inside(*health).stdout.startswith("joins, "))
        time.sleep(AGREES_AFTER)
        self.first.do(f"echo node 1 | {self.page[heading][1][0]} --publish")
        self.first.wait("all are well", self.status_is_well())
        counts = [machine.property(f"wfarm-node@{number}", "NRestarts")
                  for number, machine in enumerate(self.nodes)]
        self.first.see(f"each node ended and was started again: {', '.join(counts)} times", "0" not in counts)
        self.publish_roads("of a replaced node")

    def move(self):
        """"A node moves": the third one, to another machine."""
        heading, old = "A node moves", self.nodes[2]
        new = self.nodes[2] = self.host(MOVED)
        self.install(new, self.new)
        self.follow(old, heading)
        old.file("root/node-2.tar").rename(new.file("root/node-2.tar"))
        self.follow(new, heading, 1)
        for machine in (*self.nodes, self.renderer):
            self.follow(machine, heading, 2)
        self.follow(self.renderer, heading, 3)
        begin, restart, restart_replica = self.page[heading][4]
        new.do(begin)
        for number in (0, 1):
            self.nodes[number].do(self.as_node(restart, number))
            self.first.wait(f"node {number} answers", lambda: self.answers(number))
        self.renderer.do(restart_replica)
        self.first.wait("all are well", self.status_is_well())
        old.stop()
        self.publish_roads("of a moved node")

    def answers(self, number):
        """Whether `wfarmctl status` reaches a node."""
        return any(line.startswith(f"node {number} ") and "unreachable" not in line
                   for line in self.status_lines())

    def second_farm(self):
        """"Two farms"."""
        for number, machine in enumerate(self.nodes):
            self.follow(machine, "Two farms", number=number)
        self.first.wait("the second farm is well", self.status_is_well("/etc/wfarm/roads"))
        self.first.do(f"wfarmctl --farm /etc/wfarm/roads publish {EXAMPLES}/lakes.map")
        self.first.see("the first farm is as it was", self.status_is_well()())
        self.follow(self.renderer, "Two farms", 1)
        self.renderer.wait("each has its own pictures by nginx", lambda: self.has_picture()
                           and self.has_picture(LAKES, OTHER_SITE))
        self.renderer.see("and not the other's", not self.has_picture(LAKES)
                          and not self.has_picture(ROADS, OTHER_SITE))
        for number, machine in enumerate(self.nodes):
            machine.do(f"systemctl disable --now wfarm-node@roads-{number}")


def begin_anew(walk):
    """"Begin anew", after the disk of the third node was lost, while clients go on asking."""
    heading, first = "Begin anew", walk.first
    walk.nodes[2].do("systemctl disable --now wfarm-node@2 && rm -r /var/lib/wfarm/node-2")
    walk.publish_roads("of two nodes")
    before = [first.inside("wfarmctl", "map", str(number)).stdout for number in range(1, 10)]
    for number, machine in enumerate(walk.nodes[:2]):
        told = walk.follow(machine, heading, number=number)
        first.see(f"how far the tape goes: {told.strip()}", "whole" in told)
    for number, machine in enumerate(walk.nodes):
        walk.follow(machine, heading, 1, number)
    first.edit("/etc/wfarm/nodes", (r"(?m)^replica.*\n", ""))
    first.wait("the new farm is well", walk.status_is_well())
    walk.follow(first, heading, 2)
    after = [first.inside("wfarmctl", "map", str(number)).stdout for number in range(1, 10)]
    first.see("it has the same maps under the same sequences", before == after and before[0])

    def empty():
        for block in (3, 4):
            walk.follow(walk.renderer, heading, block)
        first.inside("bash", "-c", "echo 'replica 10.0.0.11:8080 10.0.0.11:9090' >> /etc/wfarm/nodes")
        first.wait("all are well, the replica too", walk.status_is_well())

    walk.while_clients_ask(empty)


def attempt(walk):
    walk.begin()
    walk.publish()
    walk.serve_behind_nginx()
    walk.add_renderer()
    for step in (walk.upgrade, walk.lose_machine, walk.move):
        walk.while_clients_ask(step)
    walk.second_farm()
    begin_anew(walk)


def walk_through(options, folder):
    root = options.root
    if root is None:
        root = pathlib.Path(folder) / "debian"
        debian(None, root, INCLUDED)
    walk = Walk(folder, root, options.program, options.older or options.program)
    run("ip", "link", "delete", BRIDGE, check=False)
    run("ip", "link", "add", BRIDGE, "type", "bridge")
    run("ip", "link", "set", BRIDGE, "up")
    try:
        if walk.boot():
            attempt(walk)
    finally:
        for machine in walk.machines:
            machine.stop()
        run("ip", "link", "delete", BRIDGE, check=False)
    return walk.wrong()


def main():
    asked = words(__doc__)
    asked.add_argument("--older", metavar="PROGRAM", help="the program before the upgrade; else the same")
    options = asked.parse_args()
    need_here(options, "systemd-nspawn", "nsenter", "ip")
    with tempfile.TemporaryDirectory(prefix="wfarm-pages-") as folder:
        wrong = walk_through(options, folder)
    print(f"{wrong} wrong")
    return int(bool(wrong))


if __name__ == "__main__":
    sys.exit(main())
