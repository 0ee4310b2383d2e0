#!/usr/bin/env python3
"""Tries the units of systemd under a systemd of their own: the package (`tools/make_deb.py`) in a Debian that
`systemd-nspawn` boots, with three nodes, a replica and both kinds of `wfarm serve` as services; what becomes
of each at a signal, and of each, of one that is stopped and of one that failed at an upgrade, a removal, an
installation anew and a purge.

DIR is a Debian made before (debootstrap with the packages of INCLUDED), copied from; else one is made. Wants
root, debootstrap and systemd-container.
"""

import pathlib
import shutil
import subprocess
import sys
import tempfile
import time

import make_deb
from farmkit.processes import children, end
from try_deb import Root, debian, need_here, package, words

INCLUDED = "systemd,systemd-sysv,dbus,python3,python3-minimal,adduser,procps"
NODES = 3
FIRST_PORT = 8180  # of the nodes' clients; wfarm.service has 8080
PATIENCE = 180


class Container(Root):
    """A Debian that is booted in a folder."""

    def wait(self, what, is_so, seconds=PATIENCE):
        super().wait(what, is_so, seconds)

    def boot(self, *network):
        """Boots it, by default with a network of its own; whether its systemd answers."""
        words = ["systemd-nspawn", "--quiet", "--boot", "--register=no", "--keep-unit",
                 *(network or ("--private-network",)), "--directory", str(self.path)]
        console = (self.path.parent / "console").open("wb")
        self.process = subprocess.Popen(words, stdin=subprocess.DEVNULL, stdout=console, stderr=console)
        self.leader = None
        until = time.monotonic() + PATIENCE
        while time.monotonic() < until and self.process.poll() is None:
            self.leader = next(map(str, children(self.process.pid)), None)
            if self.leader and self.inside("systemctl", "is-system-running").stdout.strip() in ("running",
                                                                                                "degraded"):
                return True
            time.sleep(0.5)
        return False

    def inside(self, *words):
        entering = ["nsenter", "--target", self.leader, "--mount", "--uts", "--ipc", "--net", "--pid",
                    "--root", "--wdns=/"]
        return subprocess.run([*entering, *words], capture_output=True, text=True)

    def property(self, unit, name):
        return self.inside("systemctl", "show", "--value", "--property", name, unit).stdout.strip()

    def is_active(self, *units):
        return all(self.property(unit, "ActiveState") == "active" for unit in units)

    def is_well(self):
        return self.inside("wfarmctl", "status").returncode == 0

    def stop(self):
        if self.leader:
            self.inside("systemctl", "poweroff")
        try:
            self.process.wait(30)
        except subprocess.TimeoutExpired:
            end(self.process)


def prepare(container, program, folder):
    """Installs an older version of the package, and makes the nodes' folders and settings."""
    old = package(program, "0.0.9", folder)
    shutil.copy(old, container.path / "root")
    container.see_done("the package is installed", container.chroot("dpkg", "--install", "/root/" + old.name))
    settings = container.path / "etc/wfarm"
    settings.mkdir(exist_ok=True)
    peers, readers = (",".join(f"127.0.0.1:{first + number}" for number in range(NODES))
                      for first in (7000, 7010))
    for number in range(NODES):
        state, user = f"/var/lib/wfarm/node-{number}", ["chroot", "--userspec=wfarm:wfarm", "/"]
        container.chroot("install", "-d", "-o", "wfarm", "-g", "wfarm", state)
        container.see_done(f"init of node {number}", container.chroot(
            *user, "wfarm", "init", "--state", state, "--farm", "county", "--id", str(number), "--nodes",
            str(NODES)))
        (settings / f"node-{number}.conf").write_text(
            f"PEERS={peers}\nHTTP=127.0.0.1:{FIRST_PORT + number}\nADMIN=127.0.0.1:{9090 + number}\n"
            f"MORE=--readers 127.0.0.1:{7010 + number}\n")
    for name, port in (("county", 8391), ("stopped", 8392)):
        (settings / f"{name}.conf").write_text(f"PORT={port}\nNODES=3\n")
    (settings / "replica-0.conf").write_text(
        f"FARM=county\nPEERS={readers}\nHTTP=127.0.0.1:8090\nADMIN=127.0.0.1:9190\n")
    lines = [f"127.0.0.1:{FIRST_PORT + number} 127.0.0.1:{9090 + number}\n" for number in range(NODES)]
    (settings / "nodes").write_text("".join(lines) + "replica 127.0.0.1:8090 127.0.0.1:9190\n")


def end_by(container, unit, name):
    """Ends a unit's program by a signal: systemd starts it again. SIGTERM is to it as status 0."""
    number = container.property(unit, "MainPID")
    container.inside("kill", name, number)
    container.wait(f"{unit} is started again after kill {name}", lambda: container.is_active(unit)
                   and container.property(unit, "MainPID") not in ("0", number))
    container.see(f"{unit} counts one restart", container.property(unit, "NRestarts") == "1")


def answers(container):
    """Whether all nodes of a farm in one process answer."""
    ask = ["python3", "-c", "import urllib.request; "
           "print(urllib.request.urlopen('http://127.0.0.1:8080/status').read().decode())"]
    return container.inside(*ask).stdout.startswith("node ")


def attempt(container, program, folder):
    units = [f"wfarm-node@{number}" for number in range(NODES)] + ["wfarm-replica@0", "wfarm@county", "wfarm"]
    container.see_done("the units are started", container.inside("systemctl", "start", *units))
    container.wait("all are active", lambda: container.is_active(*units))
    container.wait("wfarmctl status finds all well", container.is_well)
    told = container.inside("wfarmctl", "publish", "/usr/share/wfarm/examples/county.map")
    container.see("a map is published", told.stdout.startswith("published 1"), told.stderr)
    container.wait("the replica has it", container.is_well)
    container.wait("wfarm.service answers", lambda: answers(container))
    for number, unit in enumerate(units):
        end_by(container, unit, ("-KILL", "-TERM")[number % 2])
    container.wait("all are well again", lambda: container.is_well() and answers(container))
    wear_out(container, units[2])
    newer = upgrade(container, program, folder, units)
    container.see_done("the units are stopped", container.inside("systemctl", "stop", *units),
                       not any(container.is_active(unit) for unit in units))
    container.see("no program is left", container.inside("pgrep", "-x", "wfarm").returncode == 1)
    remove(container, newer, units)


def remove(container, package_name, units):
    """A removal while everything runs, an installation anew, and a purge."""
    wants = container.path / "etc/systemd/system/multi-user.target.wants"
    container.inside("systemctl", "enable", "--now", *units)
    container.wait("all nodes run", container.is_well)
    container.see_done("the package is removed", container.inside("dpkg", "--remove", "wfarm"))
    container.see("each unit was stopped", not any(container.is_active(unit) for unit in units))
    container.see("no program is left", container.inside("pgrep", "-x", "wfarm").returncode == 1)
    container.see_done("it is installed again",
                       container.inside("dpkg", "--install", "/root/" + package_name))
    container.see("units that were enabled are still, and aren't started",
                  container.property("wfarm-node@0", "UnitFileState") == "enabled"
                  and not container.is_active("wfarm-node@0"))
    container.inside("systemctl", "start", *units)
    container.wait("the nodes go on", container.is_well)
    container.see_done("it is purged", container.inside("dpkg", "--purge", "wfarm"),
                       not any(container.is_active(unit) for unit in units))
    left = [link.name for link in wants.glob("wfarm*")]
    container.see("no unit is enabled any more", not left, left)
    container.see("the nodes' folders stay", (container.path / "var/lib/wfarm/node-0/farm").exists())


def wear_out(container, unit):
    """A node whose folder isn't one ends at each start, until it stays ended and is reported."""
    farm = container.path / "var/lib/wfarm/node-2/farm"
    farm.rename(farm.with_name("away"))
    container.inside("kill", "-9", container.property(unit, "MainPID"))
    container.wait(f"{unit} stays ended after its starts failed",
                   lambda: container.property(unit, "ActiveState") == "failed")
    starts = container.property(unit, "NRestarts")
    container.see(f"it was to be started again {starts} times, five at most were", starts in ("5", "6"))
    container.wait("it is reported",
                   lambda: "stays ended" in container.inside("journalctl", "--identifier", "wfarm",
                                                             "--output", "cat").stdout)
    told = container.inside("journalctl", "--unit", unit, "--output", "cat").stdout
    container.see("the journal has its last line",
                  "bad folder: not a node's folder: wfarm init makes one" in told, told[-300:])
    farm.with_name("away").rename(farm)
    container.inside("systemctl", "reset-failed", unit)
    container.inside("systemctl", "start", unit)
    container.wait("it is well once its folder is back", container.is_well)


def upgrade(container, program, folder, units):
    new = package(program, make_deb.version_now(), folder)
    shutil.copy(new, container.path / "root")
    (container.path / "etc/wfarm/node-8.conf").write_text("PEERS=\nHTTP=\nADMIN=\nMORE=\n")
    container.inside("systemctl", "start", "wfarm-node@8", "wfarm@stopped")
    container.inside("systemctl", "stop", "wfarm@stopped")
    container.wait("a unit that can't run has failed",
                   lambda: container.property("wfarm-node@8", "ActiveState") == "failed")
    before = [container.property(unit, "MainPID") for unit in units]
    container.see_done("the package is upgraded", container.inside("dpkg", "--install", "/root/" + new.name))
    after = [container.property(unit, "MainPID") for unit in units]
    container.see("each service runs the new program", not set(before) & set(after))
    container.see("one that failed stays so, and one that was stopped too",
                  container.property("wfarm-node@8", "ActiveState") == "failed"
                  and not container.is_active("wfarm@stopped"))
    container.wait("all are well", lambda: container.is_well() and answers(container))
    return new.name


def main():
    options = words(__doc__).parse_args()
    need_here(options, "systemd-nspawn", "nsenter")
    with tempfile.TemporaryDirectory() as folder:
        path = pathlib.Path(folder) / "root"
        debian(options.root, path, INCLUDED)
        container = Container(path)
        prepare(container, options.program, folder)
        try:
            is_up = container.boot()
            container.see("systemd runs in a container", is_up,
                          (path.parent / "console").read_text(errors="replace")[-500:])
            if is_up:
                attempt(container, options.program, folder)
        finally:
            container.stop()
    return container.conclude()


if __name__ == "__main__":
    sys.exit(main())
