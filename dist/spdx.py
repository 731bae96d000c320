#!/usr/bin/env python3
"""Prints what archives of a release have in them, as an SPDX 2.3 document in JSON.

    dist/spdx.py NAME SECONDS ARCHIVE..

NAME is the document's, SECONDS its time since 1970. Each ARCHIVE, a tarball or a Debian package, is listed with its SHA-256
and each file in it. A program, and the libraries as `tufcheck`, link what dist/notices names between parentheses: ports of
crates, and parts of the kit. The licenses and holders are those that it names, and nothing is said of what it doesn't name. The same
archives make the same bytes. Needs dpkg-deb for a package. The status is 0, or 1 if something can't be read.
"""
import datetime
import hashlib
import json
import pathlib
import re
import subprocess
import sys
import tarfile
import uuid

NOTICES = pathlib.Path(__file__).resolve().parent / "notices"
SPDX = {"Apache-2.0": "Apache-2.0", "Expat": "MIT", "kit": "LicenseRef-kit"}
NOTHING = "NOASSERTION"


def stanzas():
    """The paragraphs of the notices, each with its fields."""
    for paragraph in NOTICES.read_text().split("\n\n"):
        fields = re.findall(r"^([A-Z][A-Za-z-]*):(.*(?:\n[ \t].*)*)", paragraph, re.MULTILINE)
        yield {name: "\n".join(line.strip() for line in value.strip().split("\n")) for name, value in fields}


class Program:
    """What a stanza says of a program: the license, the holders, and the parts, each with its license and holders."""

    def __init__(self, stanza):
        self.license = " AND ".join(SPDX[it] for it in stanza["License"].split("\n")[0].split(" and "))
        self.holders = stanza["Copyright"]
        self.parts = {}
        for line in self.holders.split("\n"):
            named = re.fullmatch(r"(.*) \(([^()]*?)(?:; (.*))?\)", line)
            for name in named[2].split(", ") if named else []:
                part = self.parts.setdefault(name, {"license": SPDX[named[3] or "Expat"], "holders": []})
                part["holders"] += [] if named[1].startswith("not named") else [named[1]]


class Notices:
    """What the notices say: of all files, of each program, and of the kit."""

    def __init__(self):
        found = list(stanzas())
        self.all_files, self.tufcheck, self.lmskey = [
            Program(next(it for it in found if it.get("Files") == files)) for files in ("*", "tufcheck", "lmskey")]
        self.kit = next(it["License"] for it in found if it.get("License", "").startswith("kit\n")).split("\n", 1)[1]

    def of_archive(self, base):
        return self.lmskey if base.startswith("lmskey") else self.tufcheck


def members(path):
    """The files of an archive, each with its name and its bytes."""
    if path.endswith(".deb"):
        with subprocess.Popen(["dpkg-deb", "--fsys-tarfile", path], stdout=subprocess.PIPE) as process:
            with tarfile.open(fileobj=process.stdout, mode="r|") as archive:
                yield from read(archive)
        if process.returncode:
            sys.exit(f"spdx.py: {path} can't be read")
    else:
        with tarfile.open(path) as archive:
            yield from read(archive)


def read(archive):
    for member in archive:
        if member.isreg():
            yield "./" + member.name.removeprefix("./"), archive.extractfile(member).read()


def identifier(*words):
    return "SPDXRef-" + re.sub(r"[^A-Za-z0-9.]+", "-", "-".join(words)).strip("-")


def main():
    if len(sys.argv) < 4 or not sys.argv[2].isdigit():
        sys.exit("spdx.py: NAME SECONDS ARCHIVE..")
    name, seconds, archives, notices = sys.argv[1], int(sys.argv[2]), sys.argv[3:], Notices()
    packages, files, relations, sums = [], [], [], []

    def relate(one, kind, other):
        relations.append({"spdxElementId": one, "relationshipType": kind, "relatedSpdxElement": other})

    for path in archives:
        base = pathlib.Path(path).name
        program = notices.of_archive(base)
        package, inside = identifier("archive", base), []
        content = pathlib.Path(path).read_bytes()
        sums.append(hashlib.sha256(content).hexdigest())
        relate("SPDXRef-DOCUMENT", "DESCRIBES", package)
        for number, (place, data) in enumerate(members(path)):
            file, linking = identifier("file", base, str(number)), data.startswith((b"\x7fELF", b"!<arch>"))
            known = program if linking else notices.all_files
            inside.append(hashlib.sha1(data).hexdigest())
            files.append({
                "SPDXID": file, "fileName": place,
                "checksums": [{"algorithm": "SHA1", "checksumValue": inside[-1]},
                              {"algorithm": "SHA256", "checksumValue": hashlib.sha256(data).hexdigest()}],
                "licenseConcluded": known.license, "licenseInfoInFiles": [NOTHING], "copyrightText": known.holders,
            })
            relate(package, "CONTAINS", file)
            for part in known.parts:
                relate(file, "STATIC_LINK", identifier("part", part))
        packages.append({
            "SPDXID": package, "name": re.split(r"[-_][0-9]", base)[0], "versionInfo": re.search(r"[0-9]+(\.[0-9]+)+", base)[0],
            "packageFileName": base, "downloadLocation": NOTHING, "supplier": "Organization: Fullqimi", "filesAnalyzed": True,
            "packageVerificationCode": {"packageVerificationCodeValue": hashlib.sha1("".join(sorted(inside)).encode()).hexdigest()},
            "checksums": [{"algorithm": "SHA256", "checksumValue": sums[-1]}], "licenseConcluded": program.license,
            "licenseDeclared": program.license, "licenseInfoFromFiles": [NOTHING], "copyrightText": program.holders,
        })
    for part, known in {**notices.lmskey.parts, **notices.tufcheck.parts}.items():
        packages.append({
            "SPDXID": identifier("part", part), "name": part, "downloadLocation": NOTHING, "filesAnalyzed": False,
            "licenseConcluded": known["license"], "licenseDeclared": NOTHING,
            "copyrightText": "\n".join(known["holders"]) or NOTHING,
        })
    created = datetime.datetime.fromtimestamp(seconds, datetime.timezone.utc)
    json.dump({
        "spdxVersion": "SPDX-2.3", "dataLicense": "CC0-1.0", "SPDXID": "SPDXRef-DOCUMENT", "name": name,
        "documentNamespace": uuid.uuid5(uuid.NAMESPACE_OID, " ".join([name, *sums])).urn,
        "creationInfo": {"created": created.strftime("%Y-%m-%dT%H:%M:%SZ"), "creators": ["Organization: Fullqimi", "Tool: dist/spdx.py"]},
        "packages": packages, "files": files, "relationships": relations,
        "hasExtractedLicensingInfos": [{"licenseId": "LicenseRef-kit", "name": "Rattle kit", "extractedText": notices.kit}],
    }, sys.stdout, indent=1, ensure_ascii=False)
    print()


main()
