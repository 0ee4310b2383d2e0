#!/usr/bin/env python3
"""Makes a Debian package of the built program, wfarm_VERSION_amd64.deb, and beside it the file of its
SHA-256, for `sha256sum --check`.

In it: the program and `wfarmctl` in /usr/bin, each with a page for `man` made from its help; the page, the
examples and the tools that make maps in /usr/share/wfarm; the documents in /usr/share/doc/wfarm, with the
file BUILD, which says of which revision the program is; the units of systemd; and the user `wfarm` with
/var/lib/wfarm, which are made at the installation. An upgrade starts anew what runs, a removal stops it.
Removing the package leaves folders of nodes as they are; purging it does too, since a vote that is thrown
away is the one thing that a farm can't forgive.

The program is the proved one that `rt ci` leaves, unless another is given; the revision is written into it
(`tools/stamp.py`). The version is 0.1.0 and the time of the newest commit (UTC), as 0.1.0+20261126.150207:
apt-get installs no package of the version that is there, so two of one day need two. Wants dpkg-deb (package
dpkg). Prints the files' paths.
"""

import email.utils
import gzip
import hashlib
import os
import pathlib
import re
import shutil
import subprocess
import sys
import tempfile
import time

import stamp
from farmkit.command import need, program_parser
from farmkit.processes import run
from farmkit.repository import PROGRAM, TOP

UNITS = ("examples/wfarm.service", "examples/wfarm@.service", "examples/three/wfarm-node@.service",
         "examples/three/wfarm-failed@.service", "examples/three/wfarm-replica@.service")
# the documents that operators read, and what these name
DOCUMENTS = ("README.md", "CHANGELOG.md", "CONTRIBUTING.md", "SECURITY.md", "docs", "bench/README.md")
MAP_TOOLS = ("make_map.py", "import_mapfile.py", "pixmap_to_png.py", "maps", "geojson")
COMMANDS = "init node clear replica serve draw caps check canon tape run wire".split()
RUNNING = "'wfarm-node@*.service' 'wfarm-replica@*.service' 'wfarm@*.service' wfarm.service"
# the texts of a package: scripts of dpkg, and what Debian wants of each
FORMS = TOP / "tools" / "debian"


def form(name, **values):
    """A text of tools/debian, with each of these values in the place of its name in braces."""
    return (FORMS / name).read_text(encoding="utf-8").format(**values)


def place(content, path, mode=0o644):
    path.parent.mkdir(parents=True, exist_ok=True)
    path.write_bytes(content if isinstance(content, bytes) else content.encode())
    path.chmod(mode)


def zipped(text):
    return gzip.compress(text.encode(), 9, mtime=0)


def sum_of(path):
    return hashlib.sha256(path.read_bytes()).hexdigest()


def depends(program):
    """The packages that are needed: the C library at the version of the program's newest symbol."""
    symbols = [tuple(map(int, found)) for found in re.findall(rb"GLIBC_(\d+)\.(\d+)", program.read_bytes())]
    library = ["libc6 (>= %d.%d)" % max(symbols)] if symbols else []
    return ", ".join([*library, "python3", "adduser"])


def help_of(*words):
    return subprocess.run(words, check=True, capture_output=True, text=True,
                          env={**os.environ, "COLUMNS": "120"}).stdout


def manual(name, purpose, day, texts):
    """A page for `man`: each text as it is, under its heading."""
    def shown(text):
        return "\n".join("\\&" + line.replace("\\", "\\e").replace("-", "\\-")
                         for line in text.strip("\n").split("\n"))
    parts = [f".SH {heading}\n.nf\n{shown(text)}\n.fi" for heading, text in texts]
    return "\n".join([f'.TH {name.upper()} 1 "{day}"', ".SH NAME", f"{name} \\- {purpose}", *parts, ""])


def put_manuals(root, day):
    """The pages for `man`, made from each command's help."""
    program, tool = root / "usr/bin/wfarm", root / "usr/bin/wfarmctl"
    texts = [("SYNOPSIS", help_of(program, "help")),
             *((f"WFARM {command.upper()}", help_of(program, "help", command)) for command in COMMANDS)]
    own = [("SYNOPSIS", help_of(sys.executable, tool, "--help"))]
    for name, purpose, parts in (("wfarm", "farm of Web Map Service servers", texts),
                                 ("wfarmctl", "runs a farm of wfarm nodes", own)):
        place(zipped(manual(name, purpose, day, parts)), root / f"usr/share/man/man1/{name}.1.gz")


def copy_tracked(names, target):
    """Copies files and folders of the repository, but nothing that it doesn't track."""
    for name in stamp.git("ls-files", "--", *names).split("\n"):
        (target / name).parent.mkdir(parents=True, exist_ok=True)
        shutil.copy(TOP / name, target / name)


def put_shared(root):
    """The page, the examples, the tools that make maps, and the documents, placed as in the repository."""
    share, documents = root / "usr/share/wfarm", root / "usr/share/doc/wfarm"
    copy_tracked(["examples", *(f"tools/{name}" for name in MAP_TOOLS)], share)
    (share / "examples/viewer").rename(share / "viewer")
    (share / "examples/viewer").symlink_to("../viewer")
    copy_tracked(DOCUMENTS, documents)
    for name in ("examples", "tools"):
        (documents / name).symlink_to(f"../../wfarm/{name}")
    for each in (*share.rglob("*"), *documents.rglob("*")):
        if not each.is_symlink():
            each.chmod(0o755 if each.is_dir() or each.read_bytes()[:2] == b"#!" else 0o644)


def put_build(root, program, version, maintainer):
    """What Debian wants of each package, and what the program was built of."""
    documents = root / "usr/share/doc/wfarm"
    day = stamp.git("log", "-1", "--format=%cs")
    place(form("copyright"), documents / "copyright")
    place(form("overrides"), root / "usr/share/lintian/overrides/wfarm")
    date = stamp.git("log", "-1", "--format=%cD") or email.utils.formatdate(0)
    changes = form("changelog", version=version, day=day, date=date, maintainer=maintainer)
    place(zipped(changes), documents / "changelog.gz")
    proved = ("yes: `rt ci` leaves it where all proofs passed" if program == PROGRAM
              else "not known: it was given by --program")
    revision = stamp.revision_now()
    known = revision if revision != stamp.UNKNOWN else "not known: there are changes that aren't committed"
    place(form("BUILD", version=version, revision=known, installed=sum_of(root / "usr/bin/wfarm"),
               built=sum_of(program), proved=proved), documents / "BUILD")
    put_manuals(root, day)


def put_sums(root):
    """The sums of all files, for `dpkg --verify`."""
    files = sorted(path for path in root.rglob("*") if path.is_file() and not path.is_symlink())
    sums = [f"{hashlib.md5(path.read_bytes()).hexdigest()}  {path.relative_to(root)}\n" for path in files]
    place("".join(sums), root / "DEBIAN/md5sums")


def fill(root, program, version, maintainer):
    """Puts everything where it is installed."""
    place((TOP / "tools" / "wfarmctl").read_bytes(), root / "usr/bin/wfarmctl", 0o755)
    stamp.write_stamped(program, stamp.revision_now(), root / "usr/bin/wfarm")
    for unit in UNITS:
        text = (TOP / unit).read_text().replace("/usr/local/bin/wfarm", "/usr/bin/wfarm")
        place(text, root / "lib/systemd/system" / pathlib.Path(unit).name)
    put_shared(root)
    put_build(root, program, version, maintainer)
    put_sums(root)
    place(form("control", version=version, maintainer=maintainer, depends=depends(program)),
          root / "DEBIAN/control")
    for name in ("postinst", "prerm", "postrm"):
        place(form(name, running=RUNNING), root / "DEBIAN" / name, 0o755)
    for folder in root.rglob("*"):
        if folder.is_dir() and not folder.is_symlink():
            folder.chmod(0o755)


def version_now():
    seconds = stamp.git("log", "-1", "--format=%ct")
    return time.strftime("0.1.0+%Y%m%d.%H%M%S", time.gmtime(int(seconds))) if seconds else "0.1.0"


def main():
    words = program_parser(__doc__)
    words.add_argument("--version", default=version_now(), help="the package's version (%(default)s)")
    words.add_argument("--maintainer", default=stamp.git("log", "-1", "--format=%an <%ae>")
                       or "nobody <nobody@localhost>", metavar="NAME")
    words.add_argument("--to", type=pathlib.Path, default=pathlib.Path("."), metavar="DIR",
                       help="where the package is put (here)")
    options = words.parse_args()
    program = pathlib.Path(options.program)
    need("dpkg-deb")
    package = options.to / f"wfarm_{options.version}_amd64.deb"
    with tempfile.TemporaryDirectory() as folder:
        root = pathlib.Path(folder) / "root"
        root.mkdir(mode=0o755)
        try:
            fill(root, program, options.version, options.maintainer)
        except stamp.Unstamped as error:
            print(f"{program}: {error}", file=sys.stderr)
            return 1
        run("dpkg-deb", "--build", "--root-owner-group", str(root), str(package))
    sums = package.with_name(package.name + ".sha256")
    sums.write_text(f"{sum_of(package)}  {package.name}\n")
    print(package, sums, sep="\n")
    return 0


if __name__ == "__main__":
    sys.exit(main())
