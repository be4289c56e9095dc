"""Makes what is installed of the proved program: mftb_VERSION_amd64.deb and mftb-VERSION-amd64.tar.gz.

    tools/package [-o FOLDER]

In both are the program, the manual pages, the Python tools, the examples and PROOF: the commit, the kit's line, and of
each crate its verdict and the checksum of its sources. What is not proved yet is proved first. With --program FILE that
program is packed instead: nothing is known of it, so its PROOF and its version say that it is unproved.
"""

import argparse
import gzip
import hashlib
import os
import shutil
import subprocess
import tarfile
import tempfile
import tomllib
from pathlib import Path

from compiling import ROOT, proved, read_crates

LIBRARIES = "lib/python3/dist-packages"
COMMAND = """#!/usr/bin/python3
import os
import sys
from pathlib import Path

HERE = Path(__file__).resolve().parent
# Nothing is left when the package is removed.
sys.dont_write_bytecode = True
sys.path.insert(0, str(HERE.parent / "{libraries}"))
os.environ["PATH"] = f"{{HERE}}:{{os.environ.get('PATH', '')}}"
from {module} import main

sys.exit(main())
"""
CONTROL = """Package: mftb
Version: {version}
Architecture: amd64
Maintainer: mftb
Depends: libc6 (>= 2.34), python3 (>= 3.11)
Section: science
Priority: optional
Description: trajectory database whose answers are proved
 It keeps the trajectories of moving features in one file, and answers
 questions about them as CSV. PROOF in its documentation says what is proved
 of this program.
"""
UNPROVED = "UNPROVED: nothing is known of this program, and nothing is promised of its answers"
HOW = "crates and the SHA-256 of their sources, each made in the crate's folder by:"
SUMS = "find src specs proofs -type f | LC_ALL=C sort | xargs -d '\\n' sha256sum | sha256sum"


# What PROOF says


def below(crates, name):
    """A crate and all crates of the repository that it stands on, lowest first."""
    found = {}
    for it in crates[name]:
        if it in crates:
            found |= dict.fromkeys(below(crates, it))
    return [*found, name]


def sum_of(crate):
    """The checksum of a crate's sources."""
    folder = ROOT / "crates" / crate
    paths = [path for part in ("src", "specs", "proofs") for path in (folder / part).rglob("*") if path.is_file()]
    names = sorted(str(path.relative_to(folder)).encode() for path in paths)
    lines = [hashlib.sha256((folder / os.fsdecode(it)).read_bytes()).hexdigest().encode() + b"  " + it for it in names]
    return hashlib.sha256(b"".join(line + b"\n" for line in lines)).hexdigest()


def said(*words):
    return subprocess.run(words, cwd=ROOT, check=True, capture_output=True, text=True).stdout.strip()


def proof(program, version, is_proved):
    """The text of PROOF."""
    changes = " with changes" if said("git", "status", "--porcelain", "--untracked-files=no") else ""
    lines = [f"mftb {version}", "PROVED: each crate below passed its check" if is_proved else UNPROVED]
    lines += [f"commit: {said('git', 'rev-parse', 'HEAD')}{changes}", f"kit: {said('rt', 'version').splitlines()[0]}"]
    lines += [f"program: {hashlib.sha256(program.read_bytes()).hexdigest()}", HOW, f"  {SUMS}"]
    verdict = "proved" if is_proved else "unknown"
    return "\n".join([*lines, *[f"{it} {verdict} {sum_of(it)}" for it in below(read_crates(), "mftb")], ""])


# What is installed


def lay_out(place, program, text):
    """Puts all files below a prefix, as they are installed."""
    for folder in ("bin", "share/man/man1", "share/doc/mftb", LIBRARIES):
        (place / folder).mkdir(parents=True)
    install(program, place / "bin" / "mftb", 0o755)
    scripts = tomllib.loads((ROOT / "python" / "pyproject.toml").read_text())["project"]["scripts"]
    for name, target in scripts.items():
        command = place / "bin" / name
        command.write_text(COMMAND.format(libraries=LIBRARIES, module=target.removesuffix(":main")))
        command.chmod(0o755)
    for page in sorted((ROOT / "docs").rglob("mftb*.1")):
        (place / "share/man/man1" / f"{page.name}.gz").write_bytes(gzip.compress(page.read_bytes(), mtime=0))
    made = ("__pycache__", "*.pyc", "*.egg-info")
    hidden = shutil.ignore_patterns(*made)
    shutil.copytree(ROOT / "python" / "src", place / LIBRARIES, ignore=hidden, dirs_exist_ok=True)
    about = place / "share/doc/mftb"
    shutil.copytree(ROOT / "examples", about / "examples", ignore=shutil.ignore_patterns(*made, "store", "store.*"))
    shutil.copy(ROOT / "README.md", about)
    (about / "PROOF").write_text(text)


def install(source, target, mode):
    shutil.copy(source, target)
    target.chmod(mode)


def make_deb(tree, version, out):
    """A Debian package of what lies below a prefix."""
    with tempfile.TemporaryDirectory(prefix="mftb-deb-") as name:
        whole = Path(name, "root")
        shutil.copytree(tree, whole / "usr", symlinks=True)
        (whole / "DEBIAN").mkdir()
        (whole / "DEBIAN" / "control").write_text(CONTROL.format(version=version))
        whole.chmod(0o755)
        made = out / f"mftb_{version}_amd64.deb"
        words = ["dpkg-deb", "--root-owner-group", "--build", str(whole), str(made)]
        subprocess.run(words, check=True, stdout=subprocess.DEVNULL)
    return made


def make_archive(tree, version, out):
    def of_root(member):
        member.uid = member.gid = 0
        member.uname = member.gname = "root"
        return member

    made = out / f"mftb-{version}-amd64.tar.gz"
    with tarfile.open(made, "w:gz") as archive:
        archive.add(tree, arcname=f"mftb-{version}", filter=of_root)
    return made


def main():
    words = argparse.ArgumentParser(description=__doc__, formatter_class=argparse.RawDescriptionHelpFormatter)
    words.add_argument("-o", dest="output", type=Path, default=ROOT / "tools" / "out", metavar="FOLDER")
    words.add_argument("--program", type=Path, metavar="FILE", help="pack this program, which is unproved")
    asked = words.parse_args()
    if asked.program is None:
        # This says the verdict on each crate: it fails unless all are proved as they stand.
        subprocess.run([ROOT / "tools" / "prove", "mftb"], check=True)
    program = asked.program or proved()
    version = said(program.resolve(), "--version").split()[1] + ("+unproved" if asked.program else "")
    asked.output.mkdir(parents=True, exist_ok=True)
    with tempfile.TemporaryDirectory(prefix="mftb-package-") as name:
        tree = Path(name, "tree")
        lay_out(tree, program, proof(program, version, asked.program is None))
        for made in make_deb(tree, version, asked.output), make_archive(tree, version, asked.output):
            print(made)
