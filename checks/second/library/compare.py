#!/usr/bin/env python3
"""Verifies drawn repositories by the program and by the library from Python and other languages, and compares them.

  compare.py PROGRAM COUNT SEED LANGUAGE=LINES..

The histories are those of second.py: three states each, most of them damaged. Often the paths that are accepted are the
wanted ones, so that some repositories are good. TUFCHECK_LIBRARY names the library, and
PYTHONPATH has its module and second.py; each LINES is a program that library.sh compiles of lines.c, lines.rs or lines.go.
The lines, the status and the new state must be the same, and so must be

  - the outcome with target files given by length and digests, all or some;
  - the outcome after `fetch_all` into an empty job, which asks for no file twice, but that a file past the limit of its kind
    may have the wrong length there;
  - the listing's state and end, and what it lists beside the verdicts;
  - what each language writes of the listing, of the files that are needed with these target files
    and without any, and of what both states trust;
  - what a first and a new state trust, and what the program shows of them.

The last lines count the statuses and the ends. A history that differs is printed, and the status is then 1.
"""
import collections
import dataclasses
import datetime
import hashlib
import os
import re
import subprocess
import sys
import tempfile

import common
from common import quoted
import second
import tufcheck
from tufcheck import Digests, Fault, Kind, Place, Status

SECONDS = 1_767_225_600
PROGRAM = os.path.abspath(sys.argv[1])
LINES = {name: os.path.abspath(lines) for name, lines in (word.split("=", 1) for word in sys.argv[4:])}
WORDS = {fault: "".join(part.title() for part in fault.name.split("_")) for fault in Fault}
KINDS = {Kind.NOT_FOUND: "NotFound", Kind.LIMIT_REACHED: "LimitReached", Kind.NOT_SEARCHED: "NotSearched"}


def lines(outcome):
    yield f"root {outcome.root_version}"
    yield f"end {outcome.end.name.lower()}" + (f" {WORDS[outcome.fault]}" if outcome.fault else "")
    for name, version in outcome.roles.items():
        yield f"role {quoted(name)} {version}"
    for path, row in outcome.verdicts.items():
        if row:
            yield f"ok {quoted(path)} {row.length} {quoted(row.role)}"
        elif row.kind is Kind.ROLE_REFUSED:
            yield f"no {quoted(path)} {WORDS[row.fault]} {quoted(row.role)}"
        else:
            yield f"no {quoted(path)} {WORDS[row.fault] if row.fault else KINDS[row.kind]}"


def cycle(call, it):
    return f"{call}: {int(it.status)}, {it.end.text}, {it.fault.text if it.fault else 'no fault'}, {it.root_version}"


def trusted(state):
    """A line for each file that a state trusts."""
    shown = tufcheck.show(state)
    for name in ("root", "timestamp", "snapshot", "targets"):
        row = getattr(shown, name)
        if row is not None:
            yield f"{name} {row.version} {row.expires}"


def seconds(text):
    """The seconds of a moment's text after 1970. The year 0, which datetime hasn't, is as the year
    400, which is 146097 days later."""
    year, month, day, hour, minute, second = map(int, re.findall("[0-9]+", text))
    last, later = datetime.date(1970, 1, 1).toordinal(), (400, 146097) if year == 0 else (0, 0)
    days = datetime.date(year + later[0], month, day).toordinal() - later[1] - last
    return ((days * 24 + hour) * 60 + minute) * 60 + second


def shown(folder, name):
    """Those lines by the program, with the time in seconds."""
    words = [PROGRAM, "show", name]
    ran = subprocess.run(words, cwd=folder, capture_output=True, text=True, check=True)
    rows = (line.split(" ") for line in ran.stdout.splitlines())
    return [f"{step} {version} {seconds(expires)}" for step, version, expires in rows]


def shown_otherwise(folder, name, state):
    """What differs of these lines, if something does."""
    said, own = shown(folder, name), list(trusted(state))
    return f"program shows {said}\nPython {own}" if said != own else None


def more(job, outcome):
    """The lines of a listing, of what is needed with the job's target files and without any, and of
    what both states trust."""
    listing = job.list()
    yield cycle("list", listing)
    for path, row in listing.listed.items():
        fault = row.fault.text if row.fault else "no fault"
        hashes = " ".join(it.hex() if it else "-" for it in (row.sha256, row.sha512))
        yield f"{quoted(path)} {row.kind.text}, {fault}, {row.length} {quoted(row.role)}{quoted(row.name)} {hashes}"
    for needs in (job.next(), dataclasses.replace(job, targets={}).next()):
        yield cycle("next", needs)
        for row in needs.files:
            yield f"{row.place.text} {quoted(row.name)} {row.most} {int(row.optional)}"
    yield from trusted(job.state)
    yield from trusted(outcome.state)


def digests(data):
    return Digests(len(data), hashlib.sha256(data).digest(), hashlib.sha512(data).digest())


def listed(outcome, listing, targets):
    """The files that verdicts are by, by those digests alone that are listed."""
    found = {}
    for path, row in listing.listed.items():
        name = outcome.verdicts[path].file
        if name is not None:
            whole, known = digests(targets[name]), found.get(name, Digests(0))
            found[name] = Digests(whole.length, whole.sha256 if row.sha256 else known.sha256,
                                  whole.sha512 if row.sha512 else known.sha512)
    return found


def brief(outcome):
    """The outcome with a digest in place of its state."""
    return dataclasses.replace(outcome, state=hashlib.sha256(outcome.state).hexdigest()[:16])


class Fetcher:
    def __init__(self, metadata, targets):
        self.files = {Place.METADATA: metadata, Place.TARGETS: targets}
        self.fetched = set()

    def __call__(self, need):
        assert (need.place, need.name) not in self.fetched
        self.fetched.add((need.place, need.name))
        data = self.files[need.place].get(need.name)
        return None if data is None else data[: need.most + 1]


def as_fetched(outcome):
    """The outcome of a stop by a file past its kind's limit, of which no more was fetched than its listed length and a byte."""
    return dataclasses.replace(outcome, fault=Fault.LENGTH_WRONG) if outcome.fault == Fault.TOO_LONG else outcome


def compared(case):
    """What differs of a case, or its outcome."""
    folder, state, metadata, targets, wanted, limit, draw = case
    words = common.verify("--limit", str(limit), "--", *wanted)
    ran = subprocess.run([PROGRAM, *words], cwd=folder, capture_output=True, check=False)
    stored = common.read(f"{folder}/new")
    said = ran.stdout.decode().splitlines(), ran.returncode, stored
    job = tufcheck.Job(state, wanted, SECONDS, metadata, targets, limit=limit)
    outcome = job.verify()
    if said != (list(lines(outcome)), outcome.status, outcome.state):
        return f"program {said[:2]}\nPython {brief(outcome)}", outcome
    differs = shown_otherwise(folder, "new", outcome.state)
    if differs:
        return differs, outcome
    beside = list(more(job, outcome))
    for name, program in LINES.items():
        ran = subprocess.run([program, "state", "metadata", "targets", str(SECONDS), str(limit), "own", *wanted], cwd=folder,
                             capture_output=True, check=False)
        if said != (ran.stdout.decode().splitlines(), ran.returncode, common.read(f"{folder}/own")):
            return f"program {said[:2]}\n{name} {ran.stdout.decode().splitlines()} {ran.returncode} {ran.stderr}", outcome
        others = common.read(f"{folder}/own.more").decode().splitlines()
        if others != beside:
            return f"Python {beside}\n{name} {others}", outcome
        os.remove(f"{folder}/own")
    measured = {name: digests(data) for name, data in targets.items() if draw.random() < 0.8}
    others = {name: b"other" if name in measured else data for name, data in targets.items()}
    by_digests = tufcheck.Job(state, wanted, SECONDS, metadata, others, measured, limit).verify()
    if by_digests != outcome:
        return f"by bytes {brief(outcome)}\nby digests {brief(by_digests)}", outcome
    begun = tufcheck.Job(state, wanted, SECONDS, limit=limit)
    fetcher = Fetcher(metadata, targets)
    absent = tufcheck.fetch_all(begun, fetcher)
    fetched = begun.verify()
    if fetched not in (outcome, as_fetched(outcome)):
        return f"all {brief(outcome)}\nfetched {brief(fetched)}", outcome
    if not absent and not outcome.verdicts:
        return "nothing was absent", outcome
    listing = job.list()
    if (listing.state, listing.end, listing.fault, listing.root_version) != (
            outcome.state, outcome.end, outcome.fault, outcome.root_version):
        return f"listing {listing.end} {listing.fault} {listing.root_version}\n{brief(outcome)}", outcome
    for path, row in listing.listed.items():
        verdict = outcome.verdicts[path]
        if bool(row) != (verdict.kind in (Kind.ACCEPTED, Kind.FILE_REFUSED)):
            return f"{path}: {row} {verdict}", outcome
        if verdict and (row.length, row.role) != (verdict.length, verdict.role):
            return f"{path}: {row} {verdict}", outcome
        if row.name in targets and verdict.file != row.name or verdict and verdict.file not in targets:
            return f"{path}: {row} {verdict}", outcome
    by_listed = tufcheck.Job(state, wanted, SECONDS, metadata, {}, listed(outcome, listing, targets), limit).verify()
    if by_listed != outcome:
        return f"by bytes {brief(outcome)}\nby listed digests {brief(by_listed)}", outcome
    return None, outcome


def lived(seed):
    history, counts = second.History(seed), collections.Counter()
    history.root()
    with tempfile.TemporaryDirectory(prefix="library-") as folder:
        state = tufcheck.first(history.metadata["1.root.json"])
        common.write(f"{folder}/state", state)
        differs = shown_otherwise(folder, "state", state)
        if differs:
            return counts, f"seed {seed}: {differs}"
        for number in range(3):
            history.go_on()
            limit = history.draw.choice([1, 2, 3, 32, 32, 32])
            wanted = history.draw.sample(second.PATHS, history.draw.randint(1, 4))
            metadata = {name: data for name, data in history.metadata.items() if "/" not in name}
            second.write(f"{folder}/metadata", metadata)
            second.write(f"{folder}/targets", history.targets)
            common.write(f"{folder}/state", state)
            every = tufcheck.Job(state, second.PATHS, SECONDS, metadata, history.targets, limit=limit).verify()
            accepted = [path for path, row in every.verdicts.items() if row]
            if accepted and history.chance(0.5):
                wanted = accepted
            case = folder, state, metadata, history.targets, wanted, limit, history.draw
            differs, outcome = compared(case)
            if differs:
                return counts, f"seed {seed}, state {number + 1}: {differs}"
            state = outcome.state
            counts[f"status {int(outcome.status)}"] += 1
            counts[f"end {outcome.end.name} {outcome.fault.name if outcome.fault else ''}"] += 1
            for row in outcome.verdicts.values():
                counts[f"verdict {row.kind.name} {row.fault.name if row.fault else ''}"] += 1
    return counts, None


def main():
    count, seed = int(sys.argv[2]), int(sys.argv[3])
    total, status = second.all_lived(lived, count, seed)
    runs = sum(times for words, times in total.items() if words.startswith("status"))
    good = total[f"status {int(Status.GOOD)}"]
    languages = ", ".join(["Python", *LINES])
    print(f"{count} histories, {runs} repositories, {good} of them good, by {languages}: {'some differ' if status else 'none differs'}")
    return status or good == 0


if __name__ == "__main__":
    sys.exit(main())
