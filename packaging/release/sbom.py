#!/usr/bin/env python3
"""Prints what a release is made of, as SPDX 2.3 in JSON: its files with their parts, the crates of the toolchain in each part,
and the tools that made them. Run in the folder of the sources, with what was built below it.

  packaging/release/sbom.py DIR       DIR has the files of the release"""
import json
import os
import re
import sys
from datetime import datetime, timezone

from parts import CLANG, PARTS, about_crate, crates_of_kit, kit_id, newest_glibc, parts_of, sum_of, told

NONE = "NOASSERTION"


def ident(*words):
    return "SPDXRef-" + re.sub(r"[^A-Za-z0-9.-]+", "-", "-".join(words))


def package(name, id, version=None, licence=None, **more):
    return {
        "SPDXID": id,
        "name": name,
        **({"versionInfo": version} if version else {}),
        "downloadLocation": NONE,
        "filesAnalyzed": False,
        "licenseConcluded": NONE,
        "licenseDeclared": licence or NONE,
        "copyrightText": NONE,
        **more,
    }


class Bill:
    def __init__(self, version):
        self.version, self.kit = version, kit_id()
        self.packages, self.files, self.relations = [], [], []

    def relate(self, one, kind, other):
        self.relations.append({"spdxElementId": one, "relationshipType": kind, "relatedSpdxElement": other})

    def add_parts(self):
        """camplot, and its parts."""
        whole = ident("camplot")
        # (no licence has been chosen)
        self.packages.append(package("camplot", whole, self.version, "NONE", primaryPackagePurpose="APPLICATION"))
        self.relate("SPDXRef-DOCUMENT", "DESCRIBES", whole)
        for part, (about, _) in PARTS.items():
            self.packages.append(package(f"camplot {part}", ident("part", part), self.version, "NONE", summary=about))
            self.relate(whole, "CONTAINS", ident("part", part))

    def add_files(self, folder):
        for name in sorted(os.listdir(folder)):
            path, id = f"{folder}/{name}", ident("file", name)
            sums = [{"algorithm": kind.upper(), "checksumValue": sum_of(path, kind)} for kind in ("sha1", "sha256")]
            parts = parts_of(name, self.version)
            kind = "SOURCE" if "sources" in parts else "TEXT" if name.endswith((".html", ".txt")) else "ARCHIVE"
            self.files.append({
                "SPDXID": id, "fileName": f"./{name}", "checksums": sums, "fileTypes": [kind], "licenseConcluded": NONE,
                "copyrightText": NONE, "comment": "; ".join(PARTS[part][0] for part in parts),
            })
            self.relate(ident("camplot"), "CONTAINS", id)
            for part in parts:
                self.relate(id, "CONTAINS", ident("part", part))

    def add_crates(self):
        """The toolchain's crates, each in the parts that hold its code."""
        known = set()
        for part, (_, crate) in PARTS.items():
            for name in crates_of_kit(".", crate) if crate else []:
                id = ident("crate", name)
                if name not in known:
                    version, licence = about_crate(name)
                    follows = f"after the Rust crate of that name, {version}" if version else "a library of the toolchain"
                    self.packages.append(package(name, id, version or self.kit["version"], licence, summary=f"in Rattle, proved: {follows}"))
                    self.relate(id, "CONTAINED_BY", ident("toolchain"))
                    known.add(name)
                self.relate(ident("part", part), "STATIC_LINK", id)

    def add_tools(self):
        """The toolchain, and what else made the files; the C library that they need."""
        sums = [{"algorithm": "SHA256", "checksumValue": self.kit["archive"]}] if "archive" in self.kit else []
        self.packages.append(package("rattle-kit", ident("toolchain"), self.kit["version"], checksums=sums,
                                     summary="the toolchain: prover, compiler, linker, the heap of the library"))
        tools = [
            ("clang", told(CLANG, "--version"), ("program", "library", "module")),
            ("gcc", told("gcc", "--version"), ("library",)),
            ("node", told("node", "--version"), ("module", "page")),
            ("python3", told("python3", "--version"), ("python",)),
            ("dpkg-deb", told("dpkg-deb", "--version"), ("documents",)),
        ]
        for name, version, parts in tools:
            self.packages.append(package(name, ident("tool", name), version))
            for part in parts:
                self.relate(ident("tool", name), "BUILD_TOOL_OF", ident("part", part))
        for part in ("program", "library", "module"):
            self.relate(ident("toolchain"), "BUILD_TOOL_OF", ident("part", part))
        self.relate(ident("tool", "clang"), "CONTAINED_BY", ident("toolchain"))
        for part, path in (("program", "camplot"), ("library", "libcamplot.so")):
            with open(f"crates/camplot/out/{path}", "rb") as file:
                least = newest_glibc(file.read())
            id = ident("libc", part)
            self.packages.append(package("GNU C Library", id, f"{least} or later", summary=f"of the system; the {part} is linked to it"))
            self.relate(ident("part", part), "DYNAMIC_LINK", id)

    def document(self, commit, time):
        return {
            "spdxVersion": "SPDX-2.3",
            "dataLicense": "CC0-1.0",
            "SPDXID": "SPDXRef-DOCUMENT",
            "name": f"camplot-{self.version}",
            "documentNamespace": f"https://spdx.org/spdxdocs/camplot-{self.version}-{commit}",
            "creationInfo": {
                "created": datetime.fromtimestamp(time, timezone.utc).strftime("%Y-%m-%dT%H:%M:%SZ"),
                "creators": ["Tool: camplot-release"],
            },
            "packages": self.packages,
            "files": self.files,
            "relationships": self.relations,
        }


def main():
    if len(sys.argv) != 2:
        sys.exit(__doc__)
    with open("include/camplot.h", encoding="utf-8") as file:
        version = re.search(r'#define CAMPLOT_VERSION "(.*)"', file.read())[1]
    bill = Bill(version)
    bill.add_parts()
    bill.add_files(sys.argv[1])
    bill.add_tools()
    bill.add_crates()
    print(json.dumps(bill.document(os.environ["commit"], int(os.environ["SOURCE_DATE_EPOCH"])), indent=1))


if __name__ == "__main__":
    main()
