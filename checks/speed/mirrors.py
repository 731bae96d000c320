#!/usr/bin/env python3
"""Times `tufcheck verify` of hostile and of large mirrors by 0 and by 4 workers, and measures its memory.

  checks/speed/mirrors.py [--program PROGRAM] [--before PROGRAM] [--rounds N] [--most SECONDS] [CASE..]

The program is crates/tufcheck/out/tufcheck, which `rt run` in crates/tufcheck proves and builds, unless it is given or
PROGRAM in the environment names another. With `--before` each round runs that program and then the other. There are 3
rounds and all cases unless given.

For each mirror, number of wanted paths and number of workers it prints the medians of the seconds from start to end, of
the processor's seconds and of the peak memory in MB (at least that of this script). A run is killed after 60 seconds
unless given. It then prints `over 60` and what that run had used, and runs it no more. If the program of `--before`
runs out of memory, it prints `memory` likewise.

It checks that each other run prints, returns and stores what the workflow requires, which it computes itself. So the
lines and the state are also the same by 0 and by 4 workers, before and after. If not, it exits with status 1.

In a hostile mirror no key has signed the files beside the right first root:

  keyless    31 roles of 5,000,000 bytes of prefixes of one digit, to which each wanted path leads
  small      the same with 120,000 bytes each, less than 4,000,000 together
  patterns   3,900,000 bytes of patterns that are compared for long, and are for none of the paths
  repeated   one delegation 40,000 times over
  prefix     hash bins whose names begin with the same 3,800,000 bytes
  listings   hash bins of 32 bits, and a snapshot that lists 50,000 names, none of them a wanted path's bin
  roots      250 successive roots of nearly 500,000 bytes
  target     a wanted target of 600,000,000 bytes that has the listed length, beside one of 3 bytes, and a timestamp
             with six forged signatures
  costly     each kind of file of `costly.py`, with a forged signature under the right key's id
  fitting    the same kinds with 3,950,000 bytes, which fit into the bytes that are read ahead

In an honest one all is signed, and all wanted paths are accepted, but those of some kinds of `signed`:

  bins       20,000 targets in 64 and in 1,024 hash bins
  folders    20,000 targets in 1,000 roles, each for the paths of a folder
  diamond    2,000 targets of a role to which two others lead, by different keys and for every other path each
  least      a key for each role, and one target
  signatures 1,024 signatures: 32 roles that 32 keys sign each, of which the last lists the target
  large      a targets file of 3,900,000 and one of 5,000,000 bytes, of which one target is wanted
  whole      20,000 targets in 32 roles that 32 keys sign each, 5 MB of metadata, every file wanted by `--every`
  signed     each kind of file of `costly.py`, of 1,250,000, 2,500,000 and 5,000,000 bytes
  snapshots  a snapshot of 500,000, 1,000,000 and 2,000,000 bytes, after one with the same names

It takes some minutes, and up to a minute more for each run that is killed. Nothing else should run meanwhile.
"""
import argparse
import filecmp
import itertools
import os
import statistics
import subprocess
import sys

sys.path.insert(0, os.path.dirname(os.path.dirname(os.path.abspath(__file__))))
import common
from common import Run, read, write
from hostile import CASES, state_of

SCRIPT = os.path.basename(sys.argv[0])
WORKERS = ("0", "4")
REFUSED = "status 4, tufcheck: memory"


def lines_of(mirror, paths):
    """The workflow's lines for these paths."""
    if mirror.stop:
        return f"root 1\nend {mirror.stop} Unsigned\n" + "".join(f'no "{path}" NotSearched\n' for path in paths)
    accepted = sorted({role for path in paths for role in mirror.way(path)[1:]})
    roles = "".join(f'role "{role}" 1\n' for role in accepted)
    ok = lambda path: f'ok "{path}" {mirror.length(path)} "{mirror.way(path)[-1]}"\n'
    verdicts = "".join(f'no "{path}" {mirror.fault}\n' if mirror.fault else ok(path) for path in paths)
    return f"root 1\nend ready\n{roles}{verdicts}"


def prepare(program, make, sizes, counts):
    """Makes a mirror, the state before a run, and what is expected: the state after it, the status and the lines."""
    mirror = make(*sizes)
    if mirror.script:
        write("script", mirror.script.encode())
        subprocess.run([program, "make", "script", "."], check=True)
    write("state", mirror.before or state_of("root"))
    write("due.state", state_of("root") if mirror.stop else state_of("root", "snapshot", "targets", "timestamp"))
    write("due.status", b"2" if mirror.stop else b"1" if mirror.fault else b"0")
    for count in counts:
        paths = mirror.paths[:: len(mirror.paths) // count][:count]
        write(f"wanted.{count}", "\n".join(["--every"] if mirror.whole else paths).encode())
        write(f"due.lines.{count}", lines_of(mirror, paths).encode())


def prepared(*given):
    """Prepares in a process of its own, since a run's peak memory is at least that of the process that starts it."""
    child = os.fork()
    if not child:
        try:
            prepare(*given)
            os._exit(0)
        except Exception as error:
            print(f"{SCRIPT}: {error!r}", file=sys.stderr, flush=True)
        os._exit(1)
    if os.waitpid(child, 0)[1]:
        sys.exit(f"{SCRIPT}: the mirror couldn't be made")


def is_same(one, other):
    filecmp.clear_cache()
    return os.path.exists(one) and filecmp.cmp(one, other, shallow=False)


def difference(printed, due):
    """What is said of the first line in which these files differ."""
    rows = itertools.zip_longest(read(printed).splitlines(True), read(due).splitlines(True))
    number, row = next((number, row) for number, row in enumerate(rows, 1) if row[0] != row[1])
    return "line {} is {}, and {} is due".format(number, *row)


def fault_of(status, count):
    """How the status, the lines or the state of a run differ from the expected ones, or None."""
    if status != int(read("due.status")):
        return f"status {status}, {read('errors').decode(errors='replace').strip() or 'no error'}"
    if not is_same("lines", f"due.lines.{count}"):
        return difference("lines", f"due.lines.{count}")
    return None if is_same("new", "due.state") else "another state is stored"


def verify(program, workers, count, most):
    """Runs `verify`. Returns what it took, and how it differs from what is expected."""
    if os.path.exists("new"):
        os.remove("new")
    wanted = read(f"wanted.{count}").decode().split("\n")
    status, taken = common.timed([program, *common.verify("--limit", "33", *wanted, workers=workers)], most)
    return taken, None if taken.end else fault_of(status, count)


def middle(runs):
    """The medians of runs, or the one that ended before it was done if there is one."""
    return next((it for it in runs if it.end), None) or Run(*map(statistics.median, zip(*(it[:3] for it in runs))))


def measured(name, count, options, beside=lambda: None):
    """Runs the programs in turns by each number of workers, round by round, and at the end of each round what is given.
    Returns what each program took by each number of workers."""
    runs = {workers: [[] for _ in options.programs] for workers in WORKERS}
    turns = [(workers, *turn) for workers in WORKERS for turn in zip(options.programs, runs[workers])]
    for _ in range(options.rounds):
        for workers, program, done in turns:
            if any(it.end for it in done):
                continue
            taken, fault = verify(program, workers, count, options.most)
            if fault == REFUSED and program != options.programs[-1]:
                taken, fault = taken._replace(end="memory"), None
            if fault:
                sys.exit(f"{SCRIPT}: {name}, {count} paths by {workers} workers of {program}: {fault}")
            done.append(taken)
        beside()
    return {workers: list(map(middle, each)) for workers, each in runs.items()}


def row(name, count, workers, taken):
    columns = (f"{it.end or f'{it.seconds:.3f}':>9} {it.processor:>9.3f} {it.memory:>6.0f}" for it in taken)
    return "  ".join([f"{name:<20} {count:>6} {workers:>7}", *columns])


def heads(programs):
    """The lines above the rows."""
    above = [" " * 37 + f"{'before':>26}  {'after':>26}"] if len(programs) > 1 else []
    taken = f"  {'seconds':>9} {'processor':>9} {'MB':>6}"
    return "\n".join([*above, f"{'mirror':<20} {'paths':>6} {'workers':>7}{taken * len(programs)}"])


def made(options, cases, folder=None):
    """Makes the mirrors of the cases one after another, each in a folder of its own, which is then the current one.
    Gives the name of each, with each number of wanted paths."""
    for case in options.cases or cases:
        for name, make, sizes, counts in cases[case]:
            with common.room(folder):
                os.mkdir("metadata")
                os.mkdir("targets")
                prepared(options.programs[-1], make, sizes, counts)
                for count in counts:
                    yield name, count


def parser_of(description):
    parser = argparse.ArgumentParser(description=description, formatter_class=argparse.RawDescriptionHelpFormatter)
    parser.add_argument("--program", default=common.PROGRAM, metavar="PROGRAM")
    parser.add_argument("--before", metavar="PROGRAM")
    parser.add_argument("--rounds", type=int, default=3, metavar="N")
    parser.add_argument("--most", type=float, default=60, metavar="SECONDS")
    parser.add_argument("cases", nargs="*", metavar="CASE")
    return parser


def read_options(parser, cases):
    options = parser.parse_args()
    options.programs = [os.path.abspath(program) for program in (options.before, options.program) if program]
    for program in options.programs:
        if not os.access(program, os.X_OK):
            parser.error(f"no program {program}")
    for name in options.cases:
        if name not in cases:
            parser.error(f"no case {name}: there are {', '.join(cases)}")
    return options


def main():
    options = read_options(parser_of(__doc__), CASES)
    print(heads(options.programs))
    for name, count in made(options, CASES):
        for workers, taken in measured(name, count, options).items():
            print(row(name, count, workers, taken), flush=True)


if __name__ == "__main__":
    main()
