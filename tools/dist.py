#!/usr/bin/env python3
"""The program of a release, kept in dist/ beside the checksum of the sources that it was built from.

    tools/dist.py make PROGRAM     packs the program into dist/
    tools/dist.py check [PROGRAM]  says whether dist/ fits the sources, and whether the program (the one that `./hls` built) has the same bytes

A checksum is that of the list of checksums of crates.txt and of all files in src, specs and proofs of the crates, sorted by name.
"""
import hashlib
import os
import pathlib
import subprocess
import sys

ROOT = pathlib.Path(__file__).resolve().parent.parent
DIST = ROOT / "dist"
BUILT = ROOT / "crates" / "hls" / "out" / "hls"


def digest(data):
    return hashlib.sha256(data).hexdigest()


def xz(options, data):
    """What the command xz makes of some bytes; nothing where it refuses them."""
    done = subprocess.run(["xz", *options], input=data, capture_output=True)
    return done.stdout if done.returncode == 0 else b""


def sources():
    """What `sources` in ./hls gives."""
    names = [ROOT / "crates.txt"]
    for part in ("src", "specs", "proofs"):
        for folder in ROOT.glob(f"crates/*/{part}"):
            names += [path for path in folder.rglob("*") if path.is_file() and not path.is_symlink()]
    named = sorted((os.fsencode(path.relative_to(ROOT)), path) for path in names)
    return digest(b"".join(digest(path.read_bytes()).encode() + b"  " + name + b"\n" for name, path in named))


def release():
    """The fields of dist/release.txt, none where it is not there."""
    try:
        return dict(line.split(" ", 1) for line in (DIST / "release.txt").read_text().splitlines())
    except OSError:
        return {}


def make(program):
    data = pathlib.Path(program).read_bytes()
    DIST.mkdir(exist_ok=True)
    (DIST / "hls.xz").write_bytes(xz(["-9", "-T1", "-c"], data))
    machine = f"{os.uname().sysname} {os.uname().machine}"
    (DIST / "release.txt").write_text(f"machine {machine}\nsources {sources()}\nprogram {digest(data)}\n")
    print(f"dist: {len(data)} bytes, {(DIST / 'hls.xz').stat().st_size} packed")


def check(program):
    """Whether what dist/ says is so; nothing is wrong where it is for other sources."""
    kept = release()
    if not kept:
        print("dist: there is no release")
        return True
    if digest(xz(["-dc"], (DIST / "hls.xz").read_bytes())) != kept["program"]:
        print("dist: hls.xz is damaged")
        return False
    if kept["sources"] != sources():
        print("dist: the release was built from other sources")
        return True
    if not program.exists():
        print("dist: the release was built from these sources; no program was built here to compare with")
        return True
    same = digest(program.read_bytes()) == kept["program"]
    print("dist: the program that was built here has the bytes of the release" if same else "dist: the program that was built here has OTHER bytes than the release")
    return same


def main(words):
    if words[:1] == ["make"] and len(words) == 2:
        make(words[1])
    elif words[:1] == ["check"] and len(words) < 3:
        sys.exit(0 if check(pathlib.Path(words[1]) if words[1:] else BUILT) else 1)
    else:
        sys.exit(__doc__)


main(sys.argv[1:])
