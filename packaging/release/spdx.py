#!/usr/bin/env python3
"""Checks a document by the rules of SPDX 2.3 for JSON, as far as sbom.py uses them: which keys each part must and may have, of
what form values are, that names are unique, and that each relationship is between two that are there.

  packaging/release/spdx.py FILE.spdx.json [DIR]     with DIR also that the sums of the files are those of its files

It prints what is wrong, and ends with 1."""
import json
import re
import sys
from datetime import datetime
from parts import sum_of

DOCUMENT = "SPDXRef-DOCUMENT"
# Of each part the keys that it must have, and those that it may have.
MUST = {
    "document": {"spdxVersion", "dataLicense", "SPDXID", "name", "documentNamespace", "creationInfo"},
    "package": {"SPDXID", "name", "downloadLocation"},
    "file": {"SPDXID", "fileName", "checksums"},
    "relationship": {"spdxElementId", "relationshipType", "relatedSpdxElement"},
    "creation": {"created", "creators"},
    "checksum": {"algorithm", "checksumValue"},
}
MAY = {
    "document": {"packages", "files", "relationships", "comment", "annotations", "externalDocumentRefs", "snippets",
                 "hasExtractedLicensingInfos", "documentDescribes", "revieweds"},
    "package": {"versionInfo", "filesAnalyzed", "licenseConcluded", "licenseDeclared", "copyrightText", "summary", "description",
                "primaryPackagePurpose", "checksums", "supplier", "originator", "homepage", "comment", "packageFileName",
                "externalRefs", "licenseComments", "sourceInfo", "hasFiles", "packageVerificationCode"},
    "file": {"fileTypes", "licenseConcluded", "licenseInfoInFiles", "copyrightText", "comment", "noticeText"},
    "relationship": {"comment"},
    "creation": {"comment", "licenseListVersion"},
    "checksum": set(),
}
LENGTHS = {"SHA1": 40, "SHA256": 64, "SHA512": 128, "MD5": 32}
RELATIONS = set("""DESCRIBES DESCRIBED_BY CONTAINS CONTAINED_BY DEPENDS_ON DEPENDENCY_OF GENERATES GENERATED_FROM STATIC_LINK
DYNAMIC_LINK BUILD_TOOL_OF BUILD_DEPENDENCY_OF TEST_OF DOCUMENTATION_OF PACKAGE_OF OTHER""".split())
FILE_TYPES = set("SOURCE BINARY ARCHIVE APPLICATION AUDIO IMAGE TEXT VIDEO DOCUMENTATION SPDX OTHER".split())
PURPOSES = set("APPLICATION FRAMEWORK LIBRARY CONTAINER OPERATING-SYSTEM DEVICE FIRMWARE SOURCE ARCHIVE FILE INSTALL OTHER".split())
LICENCES = {"NONE", "NOASSERTION", "MIT", "Apache-2.0", "BSD-3-Clause"}
ID = re.compile(r"SPDXRef-[A-Za-z0-9.-]+")


class Check:
    def __init__(self):
        self.wrong = []

    def that(self, is_well, text):
        if not is_well:
            self.wrong.append(text)

    def keys(self, kind, held, where):
        self.that(MUST[kind] <= set(held), f"{where} lacks {sorted(MUST[kind] - set(held))}")
        more = set(held) - MUST[kind] - MAY[kind]
        self.that(not more, f"{where} has {sorted(more)}")

    def sums(self, held, where):
        for it in held:
            self.keys("checksum", it, where)
            length = LENGTHS.get(it.get("algorithm"))
            self.that(length and re.fullmatch(f"[0-9a-f]{{{length}}}", it.get("checksumValue", "")), f"{where}: a wrong checksum")

    def licences(self, held, where):
        for key in ("licenseConcluded", "licenseDeclared"):
            words = re.split(r" OR | AND ", held.get(key, "NOASSERTION"))
            self.that(set(words) <= LICENCES, f"{where}: {key} {held.get(key)}")

    def head(self, held):
        self.keys("document", held, "the document")
        self.that(held.get("spdxVersion") == "SPDX-2.3" and held.get("dataLicense") == "CC0-1.0", "the version, or the licence of the data")
        self.that(held.get("SPDXID") == DOCUMENT, "the name of the document")
        self.that(re.fullmatch(r"https?://[^\s#]+", held.get("documentNamespace", "")), "the namespace is no URI without #")
        made = held.get("creationInfo", {})
        self.keys("creation", made, "creationInfo")
        self.that(made.get("creators") and all(re.match(r"(Person|Organization|Tool): .", it) for it in made["creators"]), "the creators")
        try:
            datetime.strptime(made.get("created", ""), "%Y-%m-%dT%H:%M:%SZ")
        except ValueError:
            self.that(False, "the time of creation")

    def all(self, held):
        self.head(held)
        packages, files, relations = (held.get(key, []) for key in ("packages", "files", "relationships"))
        for it in packages:
            where = f"the package {it.get('name')}"
            self.keys("package", it, where)
            self.licences(it, where)
            self.sums(it.get("checksums", []), where)
            self.that(it.get("primaryPackagePurpose", "OTHER") in PURPOSES, f"{where}: its purpose")
            self.that(it.get("filesAnalyzed") is False, f"{where}: its files are not analyzed here")
        for it in files:
            where = f"the file {it.get('fileName')}"
            self.keys("file", it, where)
            self.licences(it, where)
            self.sums(it.get("checksums", []), where)
            self.that(any(one.get("algorithm") == "SHA1" for one in it.get("checksums", [])), f"{where} has no SHA1")
            self.that(it.get("fileName", "").startswith("./") and set(it.get("fileTypes", [])) <= FILE_TYPES, f"{where}: its name or type")
        names = [it.get("SPDXID", "") for it in [held, *packages, *files]]
        self.that(len(names) == len(set(names)) and all(map(ID.fullmatch, names)), "a name stands twice, or is none")
        for it in relations:
            self.keys("relationship", it, "a relationship")
            self.that(it.get("relationshipType") in RELATIONS, f"the relationship {it.get('relationshipType')}")
            ends = {it.get("spdxElementId"), it.get("relatedSpdxElement")}
            self.that(ends <= set(names), f"a relationship with {sorted(ends - set(names))}, which is not there")
        self.that(any(it.get("spdxElementId") == DOCUMENT and it.get("relationshipType") == "DESCRIBES" for it in relations),
                  "the document describes nothing")


def main():
    if len(sys.argv) not in (2, 3):
        sys.exit(__doc__)
    with open(sys.argv[1], encoding="utf-8") as file:
        held = json.load(file)
    check = Check()
    check.all(held)
    for it in held.get("files", []) if sys.argv[2:] else []:
        for one in it["checksums"]:
            path = f"{sys.argv[2]}/{it['fileName']}"
            check.that(sum_of(path, one["algorithm"].lower()) == one["checksumValue"], f"the sum of {it['fileName']}")
    print("\n".join([*check.wrong, f"spdx: {len(held.get('packages', []))} packages, {len(held.get('files', []))} files, {len(check.wrong)} faults"]))
    return int(bool(check.wrong))


if __name__ == "__main__":
    sys.exit(main())
