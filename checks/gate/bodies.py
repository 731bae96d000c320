"""Does the work of checks/gate/bodies.sh: bodies.py REPOSITORY COPY [--gate] [CRATE..]"""
import re
import shutil
import subprocess
import sys
from pathlib import Path

TOP, COPY = Path(sys.argv[1]), Path(sys.argv[2])
IS_GATE = sys.argv[3:4] == ["--gate"]
HEAD = re.compile(r"( *)(?:pub(?:\(\w+\))? )?(?:const )?fn (\w+)")
# An open goal, by its place, and a goal whose written answer doesn't hold, by the folder of the answer.
GOAL = re.compile(r"(?:so far: )?note: (src/\S+?):(\d+):\d+: (it is not proved.*|`search` found no proof.*)")
ANSWER = re.compile(r"(?:so far: )?(?:\./)?proofs/(\S+)/Answers\.antt:\d+:\d+: error: `((\w+)[^`]*)")
# What isn't proved, and the goal's name, which ends with that of a clause that has one.
MEANING = re.compile(r"it is not proved that (.+?) \(`([^`]+)`\)")
CLAUSE = re.compile(r"returns\b.*?-clause-(\w+)")
# Such an answer may name what the edit took away, which shows nothing about the contract.
LOST = re.compile(r"has no field|is not in scope|has no `|was not admitted")


class Stop(Exception):
    """Why edits couldn't be tried."""


def replaced(name, text, old, new):
    if text.count(old) != 1:
        raise Stop(f"{name}: this text stands {text.count(old)} times, and not once: {old}")
    return text.replace(old, new)


def function_at(text, line):
    """The line of the `fn` of the function that contains that line, if there is one; lines count from 0."""
    lines = text.split("\n")
    while lines[line].lstrip().startswith("#["):
        line += 1
    for at in range(line, -1, -1):
        if head := HEAD.match(lines[at]):
            last = next((n for n in range(at, len(lines)) if lines[n] == head[1] + "}"), at)
            return at if line <= last else None
    return None


def meaning_of(goal):
    """What an open goal is about: a clause of the function by its name, or what else isn't proved."""
    found = MEANING.search(goal)
    name = found[2] if found else goal
    if clause := CLAUSE.match(name):
        return f"clause `{clause[1]}`"
    if name.startswith("returns"):
        return "a clause without a name"
    return found[1] if found else f"`{name}`"


class Edit:
    """An edit, and the functions that it edits: pairs of a file and the line of the `fn`."""

    def __init__(self, crate, path):
        self.name = f"{crate}/{path.stem}"
        self.pairs, self.functions, texts = [], set(), {}
        for line in path.read_text().split("\n"):
            key, _, words = line.partition(":")
            words = words.removeprefix(" ")
            if key == "file":
                file = words
                texts.setdefault(file, (TOP / "crates" / crate / file).read_text())
            elif key == "old":
                old = words
            elif key == "new":
                text = texts[file]
                texts[file] = replaced(self.name, text, old, words)
                self.pairs.append((file, old, words))
                self.functions.add((file, function_at(text, text.count("\n", 0, text.index(old)))))

    def is_alone(self):
        return any(at is None for _, at in self.functions)

    def goes_with(self, other):
        return not (self.is_alone() or other.is_alone() or self.functions & other.functions)


def grouped(edits):
    """The edits in groups, no two of a group in one function."""
    groups = []
    for edit in edits:
        group = next((it for it in groups if all(map(edit.goes_with, it))), None)
        if group is None:
            groups.append(group := [])
        group.append(edit)
    return groups


def write(crate, edits):
    """Makes the copy's crate this one with these edits."""
    own, folder = TOP / "crates" / crate, COPY / "crates" / crate
    for part in ("src", "specs", "proofs"):
        shutil.rmtree(folder / part, ignore_errors=True)
        if (own / part).is_dir():
            shutil.copytree(own / part, folder / part)
    for edit in edits:
        for file, old, new in edit.pairs:
            (folder / file).write_text(replaced(edit.name, (folder / file).read_text(), old, new))


def checked(crate, edits):
    """What a check says of the crate with these edits."""
    write(crate, edits)
    folder = COPY / "crates" / crate
    pipes = {"stdin": subprocess.DEVNULL, "stdout": subprocess.PIPE, "stderr": subprocess.STDOUT}
    return subprocess.run(["rt", "check"], cwd=folder, text=True, errors="replace", **pipes).stdout


def answered(folder, place, goal):
    """The functions whose answers are at that place below proofs/; a goal of a cycle of calls begins with a name."""
    *outer, last = place.split("/")
    name = goal if last.startswith("+") else last
    paths = ["src/" + "/".join(outer[:n]) + ".rt" for n in range(len(outer), 0, -1)]
    file = next((it for it in paths if (folder / it).is_file()), "src/lib.rt")
    heads = enumerate(map(HEAD.match, (folder / file).read_text().split("\n")))
    return {(file, at) for at, head in heads if head and head[2] == name}


def open_goals(folder, said):
    """The functions of which a check says that goals of their own are open, each with what these are about."""
    found = {}
    for line in said.split("\n"):
        functions, goal = set(), ""
        if open_goal := GOAL.match(line):
            text = (folder / open_goal[1]).read_text()
            functions, goal = {(open_goal[1], function_at(text, int(open_goal[2]) - 1))}, open_goal[3]
        elif (answer := ANSWER.match(line)) and not LOST.search(line):
            functions, goal = answered(folder, answer[1], answer[3]), answer[2]
        for function in functions:
            found.setdefault(function, set()).add(meaning_of(goal))
    return found


def described(folder, goals):
    """The functions by their names, each with its open goals."""
    lines = []
    for (file, at), meanings in sorted(goals.items(), key=str):
        head = HEAD.match((folder / file).read_text().split("\n")[at]) if at is not None else None
        lines.append(f"{head[2] if head else file}: {', '.join(sorted(meanings))}")
    return "; ".join(lines)


def tried(crate, edits):
    """Each edit, what became of it, and the open goals that refuse it."""
    said = checked(crate, edits)
    folder = COPY / "crates" / crate
    found = open_goals(folder, said)
    for edit in edits:
        own = {it: found[it] for it in edit.functions & found.keys()}
        # The gate's edits may change what has no contract, so that one above it refuses them.
        if not own and (edit.is_alone() or IS_GATE and len(edits) == 1):
            own = found
        if own:
            yield edit.name, "refused", described(folder, own)
        elif len(edits) > 1:
            yield from tried(crate, [edit])
        else:
            yield edit.name, "PROVED" if re.search("^logic=proved", said, re.M) else "UNTRIED", ""


def folder_of(crate):
    """The folder of a crate's edits: the gate's, or those that are tried outside it."""
    return TOP / "crates" / crate / "must-fail" if IS_GATE else TOP / "checks/bodies" / crate


def crates_with_edits():
    """The names of all crates that have such edits."""
    return sorted(it.name for it in (TOP / "crates").iterdir() if folder_of(it.name).is_dir())


def main(crates):
    counts = {"refused": 0, "PROVED": 0, "UNTRIED": 0}
    for crate in crates or crates_with_edits():
        edits = [Edit(crate, path) for path in sorted(folder_of(crate).glob("*.edit"))]
        if not re.search("^logic=proved", checked(crate, []), re.M):
            raise Stop(f"{crate} isn't proved as it stands")
        for group in grouped(edits):
            for name, end, goals in tried(crate, group):
                counts[end] += 1
                print(f"{end} {name}" + (f" by {goals}" if goals else ""), flush=True)
        # (those above it are tried over the unchanged crate)
        write(crate, [])
    print(", ".join(f"{count} {end.lower()}" for end, count in counts.items()))
    return 2 if counts["UNTRIED"] else 1 if counts["PROVED"] else 0


if __name__ == "__main__":
    try:
        sys.exit(main(sys.argv[3 + IS_GATE :]))
    except Stop as why:
        print(f"bodies: {why}", file=sys.stderr)
        sys.exit(2)
