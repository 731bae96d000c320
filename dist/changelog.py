#!/usr/bin/env python3
"""Prints the changelog of a Debian package, from CHANGELOG.md.

    dist/changelog.py PACKAGE VERSION SECONDS

The first entry is that of VERSION, with the time SECONDS since 1970: the part `[VERSION]`, or `[Unreleased]` as long as the
page says that the next is VERSION. The parts below it follow, each with the day that its heading has. The status is 0, or 1
if there is no such part, or a heading has no day, which is printed.
"""
import datetime
import email.utils
import pathlib
import re
import sys
import textwrap

PAGE = pathlib.Path(__file__).resolve().parents[1] / "CHANGELOG.md"
WHO = "Fullqimi maintainers <maintainers@users.noreply.fullqimi.example>"


def refused(why):
    sys.exit(f"changelog.py: {why}")


def plain(text):
    """A line without its links."""
    return re.sub(r"\[([^]]*)\]\([^)]*\)", r"\1", text)


def entry(package, version, moment, lines):
    """An entry for the lines of a part."""
    shown = []
    for line in lines:
        if line.startswith("### "):
            shown.append(f"  * {line[4:]}:")
        elif line.startswith("- "):
            shown += textwrap.wrap(plain(line[2:]), 78, initial_indent="    - ", subsequent_indent="      ",
                                   break_long_words=False, break_on_hyphens=False)
        elif line:
            refused(f"the part of {version} has a line that is no item: {line}")
    if not any(line.startswith("    - ") for line in shown):
        refused(f"the part of {version} has no items")
    date = email.utils.format_datetime(moment)
    return "\n".join([f"{package} ({version}) unstable; urgency=medium", "", *shown, "", f" -- {WHO}  {date}", ""])


def main():
    if len(sys.argv) != 4 or not sys.argv[3].isdigit():
        refused("PACKAGE VERSION SECONDS")
    package, version, seconds = sys.argv[1:]
    head, *found = re.split(r"^## ", PAGE.read_text(), flags=re.MULTILINE)
    parts = [part.split("\n") for part in found]
    names = [re.match(r"\[([^]]+)\]", part[0])[1] if part[0].startswith("[") else part[0] for part in parts]
    first = version if version in names else "Unreleased" if f"the next is {version}." in head else None
    if first not in names:
        refused(f"{PAGE.name} has no part for {version}")
    entries = []
    for name, part in list(zip(names, parts))[names.index(first):]:
        day = re.search(r"\d{4}-\d{2}-\d{2}", part[0])
        if name == first:
            moment = datetime.datetime.fromtimestamp(int(seconds), datetime.timezone.utc)
        elif day:
            moment = datetime.datetime.fromisoformat(day[0]).replace(tzinfo=datetime.timezone.utc)
        else:
            refused(f"the part of {name} has no day")
        entries.append(entry(package, version if name == first else name, moment, part[1:]))
    print("\n".join(entries), end="")


main()
