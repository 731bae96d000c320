#!/usr/bin/env python3
"""Prints the public functions with a clause that no must-fail edit of the gate is in.

  checks/gate/coverage.py [--all]

An edit is in a function if it changes a line of its body, or of a function of the same crate that it calls, directly or
through others. Functions are told apart by file and line: a call is taken to be of the function that its file imports,
has itself, or that alone has the name, and else of none. Functions that only borrow, wrap or copy a value, in one
expression of at most five lines and with no call of another function of the crate, are left out. Beside each function
it names an edit of `checks/bodies` that is in it, if there is one. With `--all` it prints the functions that have an
edit too, each with the first one. It takes a second, and exits with status 1 if TESTS doesn't name one that no edit of
either is in.
"""
import re
import sys
from collections import defaultdict
from pathlib import Path

TOP = Path(__file__).resolve().parent.parent.parent
PAGE = TOP / "docs" / "TESTS.md"
HEAD = re.compile(r'( *)(pub(?:\(\w+\))? )?(?:const )?(?:extern "C" )?fn (\w+)')
IMPL = re.compile(r"impl\b(?:<[^{]*?>)? (?:[\w:<>', ]+ for )?(\w+)")
IMPORT = re.compile(r"use crate::([\w:]+)::(?:\{([^}]*)\}|(\w+));")
# A call, with what stands before the name; and a function that is named, as where it is passed on.
CALL = re.compile(r"((?:self)?\.)?\b(?:(\w+)::)?(\w+)(?:::<[^(]*?>)?\(")
NAMED = re.compile(r"()\b(\w+)::(\w+)\b")


class Function:
    """A function: its file, its lines, whether it is public and has a clause, and what its body calls."""

    def __init__(self, file, first, last, head, owner, lines):
        self.file, self.first, self.last, self.owner = file, first, last, owner
        self.is_public, self.name = head[2] == "pub ", head[3]
        text = "\n".join(lines[first : last + 1])
        self.has_clause = " ensures " in text
        self.body = text[text.find("\n" + head[1] + "{\n") + 1 :].split("\n")[1:-1]
        self.calls = {*CALL.findall(text), *NAMED.findall(text)}

    def title(self):
        return f"{self.owner}::{self.name}" if self.owner else self.name


def functions_of(file, text):
    lines, found, owner = text.split("\n"), [], ""
    for at, line in enumerate(lines):
        if line.startswith(("impl", "pub trait", "trait", "pub(crate) trait")):
            match = IMPL.match(line)
            owner = match[1] if match else re.search(r"trait (\w+)", line)[1] if "trait" in line else ""
        elif line == "}":
            owner = ""
        if head := HEAD.match(line):
            found.append(Function(file, at, end_of(lines, at, head[1]), head, owner, lines))
    return found


def end_of(lines, at, blanks):
    """The last line of the function that begins there, which has no body if another one begins before it ends."""
    for number in range(at + 1, len(lines)):
        if lines[number] == blanks + "}":
            return number
        if lines[number] == "}" or HEAD.match(lines[number]):
            return number - 1
    return at


def imports_of(text):
    """The module that each imported name comes from."""
    found = {}
    for module, several, one in IMPORT.findall(text):
        for name in (several or one).split(","):
            found[name.strip()] = module.split("::")[-1]
    return found


class Crate:
    def __init__(self, folder):
        self.folder, self.functions, self.imports = folder, [], {}
        for path in sorted((folder / "src").rglob("*.rt")):
            file, text = str(path.relative_to(folder)), path.read_text()
            self.functions += functions_of(file, text)
            self.imports[file] = imports_of(text)
        self.named = defaultdict(list)
        for function in self.functions:
            self.named[function.name].append(function)

    def called(self, by, dot, owner, name):
        """The functions of the crate that this call may be of."""
        found = [it for it in self.named[name] if it is not by]
        if owner or dot == "self.":
            owner = by.owner if owner in ("Self", "") else owner
            return [it for it in found if it.owner == owner] or [it for it in found if Path(it.file).stem == owner]
        found = [it for it in found if bool(it.owner) == bool(dot)]
        if len(found) > 1:
            module = "" if dot else self.imports[by.file].get(name)
            near = [it for it in found if Path(it.file).stem == module or it.file == by.file]
            # (methods of one name in another file: those of a trait)
            found = near or [it for it in found if dot and it.file == found[0].file]
        return found

    def reached(self, function):
        """The function, and all of the crate that it calls."""
        done, due = set(), [function]
        while due:
            if (it := due.pop()) in done:
                continue
            done.add(it)
            due += [other for call in it.calls for other in self.called(it, *call)]
        return done

    def is_plain(self, function):
        """Whether the function only borrows, wraps or copies a value."""
        is_simple = len(function.body) <= 5 and not re.search(r"\b(?:if|match)\b|;|\?", "\n".join(function.body))
        return is_simple and self.reached(function) == {function}

    def edits(self, folder):
        """The functions that each edit of the folder is in."""
        for path in sorted(folder.glob("*.edit")):
            file, places = "", set()
            for line in path.read_text().split("\n"):
                key, _, words = line.partition(": ")
                if key == "file":
                    file = words
                elif key == "old" and (self.folder / file).is_file():
                    text = (self.folder / file).read_text()
                    at = text.count("\n", 0, max(text.find(words), 0))
                    places |= {it for it in self.functions if it.file == file and it.first <= at <= it.last}
            yield path.stem, places


def first_in(edits, functions):
    return next((name for name, places in edits if places & functions), None)


def main():
    every, missing, page = "--all" in sys.argv[1:], [], PAGE.read_text()
    for line in (TOP / "crates.txt").read_text().split("\n"):
        name = re.match(r"\w*", line)[0]
        if not name:
            continue
        crate = Crate(TOP / "crates" / name)
        gate = list(crate.edits(crate.folder / "must-fail"))
        bodies = list(crate.edits(TOP / "checks" / "bodies" / name))
        for function in crate.functions:
            if not (function.is_public and function.has_clause) or crate.is_plain(function):
                continue
            reached = crate.reached(function)
            if edit := first_in(gate, reached):
                if every:
                    print(f"{name}::{function.title()}: {edit}")
                continue
            body = first_in(bodies, reached)
            told = body or re.search(rf"`(?:\w+::)?{re.escape(function.title())}`|`{function.name}`", page)
            print(f"{name}::{function.title()}: {body or 'none'}{'' if told else ', not in TESTS'}")
            if not told:
                missing.append(function)
    return 1 if missing else 0


sys.exit(main())
