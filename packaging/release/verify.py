#!/usr/bin/env python3
"""Compares the files of a release with those that were made again, and names what differs, in archives file by file.

  packaging/release/verify.py DIR AGAIN

The sums in DIR have to be those of its files. Of PROVENANCE.json only `made` is compared: the rest is of one machine. It ends
with 1 if something differs."""
import hashlib
import io
import json
import os
import subprocess
import sys
import tarfile
import zipfile

ABOUT = "PROVENANCE.json"
SUMS = "SHA256SUMS"
# How many lines of a text are named.
FEW = 10


def held(path):
    with open(path, "rb") as file:
        return file.read()


def members(name, data):
    """What lies in an archive, by its path: the bytes, and how it stands there."""
    if name.endswith(".deb"):
        read = subprocess.run(["dpkg-deb", "--fsys-tarfile", "/dev/stdin"], input=data, capture_output=True, check=True).stdout
        return members(".tar", read)
    if name.endswith((".tar.gz", ".tgz", ".tar")):
        with tarfile.open(fileobj=io.BytesIO(data)) as archive:
            about = lambda it: (it.mode, it.mtime, it.uid, it.uname, it.type, it.linkname)  # noqa: E731
            return {it.name: (about(it), archive.extractfile(it).read() if it.isfile() else b"") for it in archive}
    if name.endswith(".whl"):
        with zipfile.ZipFile(io.BytesIO(data)) as archive:
            return {it.filename: ((it.external_attr, it.date_time), archive.read(it)) for it in archive.infolist()}
    return {}


def differences(name, one, other):
    """Lines about two files that differ."""
    first, second = members(name, one), members(name, other)
    found = [path for path in sorted({*first, *second}) if first.get(path) != second.get(path)]
    if name.endswith((".json", ".txt")):
        lines = zip(one.decode().split("\n"), other.decode().split("\n"))
        found = [f"{before.strip()} in place of {after.strip()}" for before, after in lines if before != after][:FEW]
    return [f"differs: {name}: {it}" for it in found or [f"{len(one)} and {len(other)} bytes"]]


def wrong_sums(folder):
    """The files of a release that are not those of its sums, or that these do not have."""
    listed = dict(reversed(line.split("  ", 1)) for line in held(f"{folder}/{SUMS}").decode().splitlines())
    there = {name: hashlib.sha256(held(f"{folder}/{name}")).hexdigest() for name in os.listdir(folder) if name != SUMS}
    return [f"not what {SUMS} has: {name}" for name in sorted({*listed, *there}) if listed.get(name) != there.get(name)]


def main():
    if len(sys.argv) != 3:
        sys.exit(__doc__)
    folder, again = sys.argv[1:]
    wrong, same = wrong_sums(folder), 0
    for name in sorted({*os.listdir(folder), *os.listdir(again)} - {SUMS}):
        paths = [f"{it}/{name}" for it in (folder, again)]
        if not all(map(os.path.isfile, paths)):
            wrong.append(f"only in {'this release' if os.path.isfile(paths[0]) else 'what was made again'}: {name}")
            continue
        one, other = map(held, paths)
        if name == ABOUT:
            one, other = (json.dumps(json.loads(it)["made"], indent=1).encode() for it in (one, other))
        if one == other:
            same += 1
        else:
            wrong += differences(name, one, other)
    print("\n".join([*wrong, f"release: {same} files are the same, made again; {len(wrong)} differences"]))
    return int(bool(wrong))


if __name__ == "__main__":
    sys.exit(main())
