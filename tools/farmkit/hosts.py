"""Hosts on one machine: network namespaces on a bridge, whose links may be silent.

Wants root, iproute2 and nftables.
"""

import subprocess
from collections.abc import Iterable

from farmkit.command import lacks
from farmkit.processes import run


def missing(number: int) -> list[str]:
    """What isn't there that a network of this number wants: commands, root, or what the kernel refuses."""
    if lacking := lacks("ip", "nft", "nsenter", root=True):
        return lacking
    try:
        network = Network(number, 2)
        network.silence([(network.hosts[0], network.hosts[1])])
        network.stop()
    except subprocess.CalledProcessError as refused:
        return [f"what `{' '.join(refused.cmd)}` wants: {refused.stderr.strip()}"]
    return []


class Network:
    """A bridge; this side has the address that ends in 254. Several may be there, of other numbers."""

    def __init__(self, number: int, count: int) -> None:
        self.number, self.bridge = number, f"wfarm{number}"
        self.clear(count)
        run("ip", "link", "add", self.bridge, "type", "bridge")
        run("ip", "address", "add", f"10.77.{number}.254/24", "dev", self.bridge)
        run("ip", "link", "set", self.bridge, "up")
        self.hosts = [Host(number, each) for each in range(count)]

    def clear(self, count: int) -> None:
        for each in range(count):
            run("ip", "netns", "delete", f"wfarm{self.number}-{each}", check=False)
            run("ip", "link", "delete", f"wfarm{self.number}-{each}", check=False)
        run("ip", "link", "delete", self.bridge, check=False)
        run("nft", f"delete table bridge {self.bridge}", check=False)

    def silence(self, pairs: "Iterable[tuple[Host, Host]]") -> None:
        """The bridge drops what goes from the first to the second host of each pair; nothing is reset."""
        run("nft", f"add table bridge {self.bridge}; "
                   f"add chain bridge {self.bridge} silent {{ type filter hook forward priority 0; }}")
        for one, other in pairs:
            run("nft", f"add rule bridge {self.bridge} silent iifname {one.name} oifname {other.name} drop")

    def heal(self) -> None:
        run("nft", f"flush chain bridge {self.bridge} silent")

    def stop(self) -> None:
        self.clear(len(self.hosts))


class Host:
    """A network namespace with an address of its own."""

    def __init__(self, network: int, number: int) -> None:
        self.number, self.name = number, f"wfarm{network}-{number}"
        self.address = f"10.77.{network}.{number + 1}"
        # (`ip netns exec` would give each program mounts of its own, and a disk that is unmounted here would
        # stay mounted there)
        self.entering = ["nsenter", f"--net=/run/netns/{self.name}"]
        run("ip", "netns", "add", self.name)
        run("ip", "link", "add", self.name, "type", "veth", "peer", "name", "eth0", "netns", self.name)
        run("ip", "link", "set", self.name, "master", f"wfarm{network}", "up")
        run(*self.entering, "ip", "address", "add", f"{self.address}/24", "dev", "eth0")
        for link in ("eth0", "lo"):
            run(*self.entering, "ip", "link", "set", link, "up")

    def at(self, port: int) -> str:
        return f"{self.address}:{port}"
