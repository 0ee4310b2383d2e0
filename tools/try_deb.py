#!/usr/bin/env python3
"""Tries the Debian package (`tools/make_deb.py`) in a clean root made by debootstrap: what is in it, and what
lintian says of it, where that is there. Its services, upgrades and removal are `tools/try_units.py`'s.

Wants root and debootstrap.
"""

import gzip
import hashlib
import os
import pathlib
import re
import shutil
import subprocess
import sys
import tempfile

import make_deb
import stamp
from farmkit.command import need, program_parser
from farmkit.documents import Document, links_of
from farmkit.trial import Trial


class Root(Trial):
    """A Debian in a folder, and what was seen in it."""

    def __init__(self, path):
        super().__init__()
        self.path = path

    def chroot(self, *words):
        return subprocess.run(["chroot", str(self.path), *words], capture_output=True, text=True)

    def see_done(self, what, ran, holds=True):
        """What a command did, where it holds too; else its errors."""
        self.see(what, ran.returncode == 0 and holds, ran.stderr)


def package(program, version, folder):
    words = [sys.executable, str(pathlib.Path(make_deb.__file__)), "--program", str(program), "--version",
             version, "--to", folder]
    quick = {**os.environ, "DPKG_DEB_COMPRESSOR_TYPE": "gzip"}
    made = subprocess.run(words, check=True, capture_output=True, text=True, env=quick)
    return pathlib.Path(made.stdout.split()[0])


def lost_links(documents):
    """The links of installed documents to other documents that aren't there."""
    return [f"{page.name}: {said}" for page in documents.rglob("*.md") for said, _ in links_of(Document(page))
            if said.endswith(".md") and not (page.parent / said).exists()]


def manual(root, name):
    """What a page for `man` has."""
    page = root.path / f"usr/share/man/man1/{name}.1.gz"
    return gzip.decompress(page.read_bytes()).decode().replace("\\-", "-")


def look_inside(root, package):
    documents, share = root.path / "usr/share/doc/wfarm", root.path / "usr/share/wfarm"
    told = manual(root, "wfarm")
    root.see("man wfarm has each command",
             all(f".SH WFARM {command.upper()}\n" in told for command in make_deb.COMMANDS))
    root.see("and init --replace, and node --replace-allowed",
             all(re.search(rf"(?m)^\W*--{option} ", told) for option in ("replace", "replace-allowed")))
    told = manual(root, "wfarmctl")
    root.see("man wfarmctl has its commands",
             all(f"wfarmctl {command}" in told for command in ("rollback SEQ", "export DIR", "replace NODE")))
    lost = lost_links(documents)
    root.see("each document that a document names is there" + "".join(f"; {it}" for it in lost), not lost)
    root.see("the tools that make maps are there", (share / "tools/make_map.py").exists()
             and (share / "tools/maps/preview.py").exists())
    build = (documents / "BUILD").read_text()
    digest = hashlib.sha256((root.path / "usr/bin/wfarm").read_bytes()).hexdigest()
    root.see("BUILD has the program's SHA-256", f"program   SHA-256 {digest}\n" in build)
    known = re.search(r"(?m)^revision  ([0-9a-f]{40})$", build)
    root.see("BUILD has the revision, where it is known",
             (known[1] if known else stamp.UNKNOWN) == stamp.revision_now())
    root.see_done("the package has the SHA-256 that stands beside it",
                  subprocess.run(["sha256sum", "--check", package.name + ".sha256"], cwd=package.parent,
                                 capture_output=True))


def lint(root, package):
    if shutil.which("lintian") is None:
        return print("lintian: left out, it isn't here")
    told = subprocess.run(["lintian", "--allow-root", "--display-info", "--pedantic", str(package)],
                          capture_output=True, text=True).stdout
    tags = [line for line in told.splitlines() if re.match("[EWIP]:", line)]
    root.see("lintian has no complaint" + "".join(f"; {tag}" for tag in tags), not tags)


def attempt(root, program, folder):
    made = package(program, make_deb.version_now(), folder)
    shutil.copy(made, root.path / "tmp")
    root.see_done("the package is installed", root.chroot("dpkg", "--install", f"/tmp/{made.name}"))
    look_inside(root, made)
    lint(root, made)
    told = root.chroot("wfarm", "--version").stdout
    root.see(f"the program prints its version and revision: {told.strip()}",
             told == f"wfarm 0.1.0 (revision {stamp.revision_now()})\n")
    root.see("dpkg finds each file as it was packed", root.chroot("dpkg", "--verify", "wfarm").stdout == "")
    root.see("the user's folder is there",
             root.chroot("stat", "--format=%U", "/var/lib/wfarm").stdout == "wfarm\n")
    root.see_done("it is purged", root.chroot("dpkg", "--purge", "wfarm"))
    root.see("the program is gone", not (root.path / "usr/bin/wfarm").exists())


def debian(root, path, included):
    """Puts a Debian into a folder: a copy of this one, or one made by debootstrap."""
    if root:
        subprocess.run(["cp", "-a", root, path], check=True)
    else:
        words = ["debootstrap", "--variant=minbase", f"--include={included}", "bookworm", path]
        subprocess.run(words, check=True, stdout=subprocess.DEVNULL)


def words(document):
    """What a trial of the package is asked for, by its docstring."""
    asked = program_parser(document)
    asked.add_argument("--root", metavar="DIR", help="a Debian that is there, copied from; else one is made")
    return asked


def need_here(options, *programs):
    """Ends a trial of the package where something isn't here that it wants."""
    need("dpkg-deb", *programs, *([] if options.root else ["debootstrap"]), root=True)


def main():
    options = words(__doc__).parse_args()
    need_here(options)
    with tempfile.TemporaryDirectory() as folder:
        path = pathlib.Path(folder) / "root"
        debian(options.root, path, "python3-minimal,adduser,python3")
        root = Root(path)
        attempt(root, options.program, folder)
    return root.conclude()


if __name__ == "__main__":
    sys.exit(main())
