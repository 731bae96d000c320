#!/usr/bin/env python3
"""Cuts a man page for each subcommand out of docs/tufcheck.1, and for the operator's other names out of docs/tufcheck-run.8:
these two alone have the texts.

    dist/pages.py FOLDER

Writes FOLDER/tufcheck-NAME.1 for each subcommand NAME that has a line in SYNOPSIS and a part of DESCRIPTION. Each page has
that line, that part, the options that the line names, its own statuses and examples, and of the other sections what
LACKS doesn't take away; so a new subcommand has all of them. Its name's few words are those of completions/tufcheck.fish.
FOLDER/tufcheck-setup.8 has that program's parts of the other source, and FOLDER/tufcheck.conf.5 the configuration, with the
file dist/operator/NAME.conf as its example.
The status is 0, or 1 if the source isn't as the script expects it, which is printed: also if LACKS names what isn't there.
"""
import pathlib
import re
import sys

TOP = pathlib.Path(__file__).resolve().parents[1]
SOURCE = TOP / "docs/tufcheck.1"
OPERATOR = TOP / "docs/tufcheck-run.8"
EXAMPLE = TOP / "dist/operator/NAME.conf"
# Sections, and items and paragraphs by their first words, with the subcommands whose pages lack them
LACKS = {
    ("NAMES", ""): "init show make key text attach signers",
    ("FAULTS", ""): "init next show make key text attach signers",
    ("FAULTS", "NoPlace"): "replay",
    ("REASONS", ""): "init next show make key text attach signers",
    ("DIAGNOSTICS", "now "): "init make key text attach signers",
    ("DIAGNOSTICS", "state file "): "init make key text attach signers",
    ("DIAGNOSTICS", "script LINE "): "init verify replay next show key text attach signers",
    ("DIAGNOSTICS", "input "): "show",
    ("DIAGNOSTICS", "folder "): "init show make key text attach signers",
    ("DIAGNOSTICS", "clock "): "init show make key text attach signers",
    ("FILES", "STATE\n"): "make key text attach signers",
    ("FILES", "STATE.1.new"): "next show make key text attach signers",
    ("FILES", "DIR/.tufcheck.1.new"): "init replay next show make key text attach signers",
    ("FILES", "What a killed run"): "next show make key text attach signers",
    ("FILES", "DIR/*.json"): "init show make key text attach signers",
    ("FILES", "DIR\n"): "init show make key text attach signers",
    ("FILES", "Links"): "init show make key text attach signers",
}


def refused(why):
    sys.exit(f"pages.py: {why}")


def plain(text):
    """A text as a reader sees it."""
    return re.sub(r"\\f[BIR]", "", text).replace("\\-", "-")


def parts(lines, word):
    """The lines before the first one that begins with a word, and then those from each such line to the next."""
    found = [[]]
    for line in lines:
        if line.split(" ")[0] == word:
            found.append([])
        found[-1].append(line)
    return found


def chunks(lines):
    """The items and paragraphs of a section, each with the request before it."""
    found = [[]]
    for line in lines:
        if line in (".TP", ".PP"):
            found.append([])
        found[-1].append(line)
    if [".TP"] in found:
        refused("an item has no title")
    return [chunk for chunk in found if chunk]


def text(chunk):
    return plain("\n".join(line for line in chunk if line not in (".TP", ".PP")))


def statuses(chunk_list, name):
    """The statuses that the last paragraph of EXIT STATUS says a subcommand has."""
    for clause in re.split(r"[;.] ", text(chunk_list[-1])):
        subject = re.match(r"((?:[a-z]+(?:, | and | have | ))+)([0-9 ,to]+)", clause)
        if subject and name in re.findall(r"[a-z]+", subject[1]):
            numbers = [int(it) for it in re.findall(r"[0-9]+", subject[2])]
            return set(range(numbers[0], numbers[1] + 1)) if " to " in subject[2] else set(numbers)
    refused(f"EXIT STATUS doesn't say which statuses {name} has")


def paged(name, section, words, content):
    """A page of the operator's, of the name, section and words for NAME, and pairs of sections and their lines."""
    title = f'.TH {name.upper()} {section} "" "tufcheck"'.replace("-", "\\-")
    lines = [title, ".SH NAME", f"{name} \\- {words}".replace("tufcheck-", "tufcheck\\-")]
    for heading, texts in content:
        if not texts:
            refused(f"{name} has nothing for {heading}")
        lines += [f".SH {heading}", *texts]
    return "\n".join(lines) + "\n"


def operator_pages():
    """The pages of tufcheck-setup and of its configuration, by the names of their files."""
    sections = {part[0][4:]: part[1:] for part in parts(OPERATOR.read_text().splitlines(), ".SH")[1:]}
    told = parts(sections["DESCRIPTION"], ".SS")
    setup = next(part[1:] for part in told if part[0] == ".SS tufcheck\\-setup")
    own = [line for line in sections["SYNOPSIS"] if "\\-setup" in line]
    status = [line for line in sections["EXIT STATUS"] if line.startswith("\\fBtufcheck\\-setup\\fR has")]
    elsewhere = [f"\\fBtufcheck\\-run\\fR(8), {sections['SEE ALSO'][0]}"]
    example = [line.replace("\\", "\\e").replace("-", "\\-") for line in EXAMPLE.read_text().splitlines()]
    return {
        "tufcheck-setup.8": paged("tufcheck-setup", 8, "set up a repository for tufcheck-run and its timer", [
            ("SYNOPSIS", "\n.br\n".join(own).splitlines()), ("DESCRIPTION", [*told[0], ".PP", "\\fBtufcheck\\-setup\\fR", *setup]),
            ("CONFIGURATION", sections["CONFIGURATION"]), ("EXIT STATUS", status), ("EXAMPLES", sections["EXAMPLES"]),
            ("FILES", sections["FILES"]), ("SEE ALSO", elsewhere)]),
        "tufcheck.conf.5": paged("tufcheck.conf", 5, "the configuration of a repository for tufcheck-run", [
            ("DESCRIPTION", sections["CONFIGURATION"]), ("EXAMPLES", [".nf", *example, ".fi"]), ("SEE ALSO", elsewhere)])}


class Source:
    """The sections of the source, and its subcommands with their lines of SYNOPSIS and parts of DESCRIPTION."""

    def __init__(self):
        self.head, *sections = parts(SOURCE.read_text().splitlines(), ".SH")
        self.sections = {section[0][4:]: section[1:] for section in sections}
        self.lines = {}
        for line in self.sections["SYNOPSIS"]:
            found = re.match(r"\\fBtufcheck ([a-z]+)\\fR ", line)
            if found:
                self.lines[found[1]] = line
        self.told = {part[0][4:]: part[1:] for part in parts(self.sections["DESCRIPTION"], ".SS")[1:]}
        fish = (TOP / "completions/tufcheck.fish").read_text()
        self.words = dict(re.findall(r"commands\" -a ([a-z]+) -d '([^']*)'", fish))
        self.met = set()
        self.lines.pop("help", None)
        if not self.lines or set(self.lines) != set(self.told) or not set(self.lines) <= set(self.words):
            refused(f"SYNOPSIS has {list(self.lines)}, DESCRIPTION {list(self.told)}, the completions {list(self.words)}")

    def lacks(self, name, section, seen):
        """Whether a subcommand's page lacks a section or what begins with that text."""
        for (of, begin), names in LACKS.items():
            if of == section and (seen.startswith(begin) if begin else not seen):
                self.met.add((of, begin))
                if name in names.split():
                    return True
        return False

    def options(self, name):
        """The options of a subcommand's line, with those that each has."""
        wanted = set(re.findall(r"--[a-z-]+", plain(self.lines[name]))) | {"--help", "--"}
        found = []
        for chunk in chunks(self.sections["OPTIONS"]):
            title = set(re.findall(r"--[a-z-]*", plain(chunk[1]))) if chunk[0] == ".TP" else set()
            if title & wanted or chunk[0] == ".PP" and "--workers" in wanted:
                found.append(chunk)
                wanted -= title
        if wanted:
            refused(f"OPTIONS has no {wanted} of {name}")
        return found

    def section(self, name, section):
        """The lines of a section in a subcommand's page."""
        if self.lacks(name, section, ""):
            return []
        lines = self.sections[section]
        if section == "OPTIONS":
            return sum(self.options(name), [])
        if section == "COPIES":
            return lines if "\\-\\-into" in self.lines[name] else []
        if section == "EXAMPLES":
            found = [line for line in lines if f"tufcheck {name} " in line]
            return [".nf", *found, ".fi"] if found else []
        if section == "SEE ALSO":
            own = f"\\fBtufcheck\\-{name}\\fR(1)"
            if own not in "\n".join(lines):
                refused(f"SEE ALSO has no {own}")
            return [line.replace(own, "\\fBtufcheck\\fR(1)") for line in lines]
        found, all_chunks = [], chunks(lines)
        for chunk in all_chunks:
            title = plain(chunk[1]) if chunk[0] == ".TP" else ""
            if section == "EXIT STATUS" and title and int(title) not in statuses(all_chunks, name):
                continue
            if title and set(title.split(", ")) <= set(self.lines) and name not in title.split(", "):
                continue
            if not self.lacks(name, section, text(chunk)):
                found += chunk
        return found

    def page(self, name):
        title = self.head[0].replace(".TH TUFCHECK ", f".TH TUFCHECK\\-{name.upper()} ")
        words = self.words[name]
        told = self.told[name]
        if title == self.head[0] or not told[0][0].islower():
            refused(f"no title, or {name}'s part of DESCRIPTION doesn't begin with a verb")
        lines = [title, ".SH NAME", f"tufcheck\\-{name} \\- {words[0].lower()}{words[1:]}", ".SH SYNOPSIS", self.lines[name],
                 ".SH DESCRIPTION", f"\\fBtufcheck {name}\\fR {told[0]}", *told[1:]]
        for section in list(self.sections)[3:]:
            found = self.section(name, section)
            lines += [f".SH {section}", *found] if found else []
        return "\n".join(lines) + "\n"


def main():
    if len(sys.argv) != 2:
        refused("one folder")
    source, folder = Source(), pathlib.Path(sys.argv[1])
    if list(source.sections)[:3] != ["NAME", "SYNOPSIS", "DESCRIPTION"]:
        refused("the first sections aren't NAME, SYNOPSIS and DESCRIPTION")
    pages = {name: source.page(name) for name in source.lines}
    if source.met != set(LACKS):
        refused(f"the source lacks {set(LACKS) - source.met}")
    folder.mkdir(parents=True, exist_ok=True)
    for name, page in [*((f"tufcheck-{name}.1", page) for name, page in pages.items()), *operator_pages().items()]:
        (folder / name).write_text(page)


main()
