#!/usr/bin/env python3
"""Times `tufcheck verify` of large and of many target files beside `sha256sum`, and beside files that nobody wants.

  checks/speed/streamed.py [--program PROGRAM] [--before PROGRAM] [--rounds N] [--most SECONDS] [--folder FOLDER] [--scale N]
                     [CASE..]

The programs, the rounds and the seconds after which a run is killed are those of `mirrors.py`, and so are the
columns and what is checked of each run: its lines, its status and the state that it stores. If one isn't what the
workflow requires, it exits with status 1. The files are made in a folder below FOLDER, or else below the one for temporary
files, and are removed after their case. At most 10 GB of them are there at once, if the file system keeps no room for
holes. `--scale N` divides the sizes of the large files, and the numbers of targets of `many`, `mirror` and `holes`, by N.

The files of a case are written before its runs, so their bytes are read from memory where as much of it is free. A run
itself may take 8,000,000,000 bytes. If the program of `--before` wants more, `memory` is printed instead of its seconds.

All is signed, and by 0 and by 4 workers each:

  one        a wanted file of 3,000,000,000 bytes, after the repository of examples/first.script
  twenty     twenty wanted files of 150,000,000 bytes
  files      64 files of 50,000,000 bytes, every file wanted, with `--every`
  unwanted   a wanted file of 3 bytes, and one of 20,000,000,000 bytes that is listed and that nobody wants
  mirror     every file of a mirror, with `--every`: 20,000 of 500,000 bytes
  holes      the same with files that have only holes
  many       20,000 targets of 1,000 bytes in 64 hash bins, of which one is wanted, and all
  longer     a wanted file that is listed with 3 bytes and has 20,000,000,000, so it is refused as `LengthWrong`
  metadata   a wanted file of 3 bytes, and in the folder of metadata one of 5,000,000,000 bytes that nobody wants: once
             with a name that ends in `.json`, and once with another

The bytes of the files of `one`, `twenty`, `files` and `mirror` are drawn by a seed, and their digests worked out by Python.
The other large files have only holes. In each round of these four and of `holes`, after the programs, `sha256sum -c`
checks all their files against these digests. The last two columns are the median of its seconds, and how many times as
long the program took.

At the end it prints of each of these, if its cases were run, whether it holds. Sometimes that can't be decided: the
true peak of a run may be less than what is measured where that isn't above the peak of this script, and a run that was
killed isn't done.

  the peak of `one`, by 0 and by 4 workers, is less than 20 MB above that of first.script
  `one` takes at most 1.1 times as long as `sha256sum`, by 0 and by 4 workers
  `twenty` takes at most a third as long as `sha256sum` by 4 workers
  `files` takes at most half of the processor's time of `sha256sum` by 0 workers
  `files` takes at most half as long by 4 workers as by 0

Nothing else should run meanwhile.
"""
import hashlib
import os
import random
import resource
import subprocess
import sys

sys.path.insert(0, os.path.dirname(os.path.dirname(os.path.abspath(__file__))))
import common
import hostile
import mirrors
import tuf

BLOCK = 2**20
MEMORY = 8_000_000_000
WANTED = "abc"


def first():
    script = common.read(f"{common.TOP}/examples/first.script").decode()
    return hostile.Mirror(["abc.txt"], script=script, length=lambda path: len(b"abc"))


def write_drawn(path, size):
    """Writes a target of that many bytes: a block that its path draws, again and again, each time after its place.
    Returns what lists the target."""
    block, digest = random.Random(path).randbytes(BLOCK - 8), hashlib.sha256()
    with open(f"targets/{path}", "wb") as file:
        for place in range(0, size, BLOCK):
            piece = (tuf.number(place, 8) + block)[: size - place]
            file.write(piece)
            digest.update(piece)
        file.flush()
        os.fsync(file.fileno())
    return {"hashes": {"sha256": digest.hexdigest()}, "length": size}


def mirrored(write, paths, size, **more):
    """Targets of that many bytes, and their digests as `sha256sum` lists them."""
    listed = {path: write(path, size) for path in paths}
    hostile.write_signed(listed)
    sums = (f"{it['hashes']['sha256']}  targets/{path}\n" for path, it in listed.items())
    common.write("due.sums", "".join(sums).encode())
    return hostile.Mirror(list(listed), length=lambda path: size, **more)


def drawn(count, size):
    return mirrored(write_drawn, hostile.numbered(count), size)


def whole(write, count, size):
    """A mirror of which every file is wanted."""
    return mirrored(write, sorted(hostile.numbered(count)), size, whole=True)


def write_zeros(path, size):
    """Writes a target of that many zeros that takes no room. Returns what lists the target."""
    hostile.write_holes(f"targets/{path}", size)
    return {"hashes": {"sha256": hashlib.sha256(bytes(size)).hexdigest()}, "length": size}


def small(**others):
    """One wanted target of 3 bytes, with what is listed beside it."""
    hostile.write_signed({WANTED: tuf.target(WANTED.encode()), **others})
    common.write(f"targets/{WANTED}", WANTED.encode())
    return hostile.Mirror([WANTED])


def unwanted(size):
    hostile.write_holes("targets/large", size)
    return small(large=hostile.unhashed(size))


def many(targets, bits, size):
    return hostile.hashed(targets, bits, lambda path: hashlib.shake_128(path.encode()).digest(size))


def longer(size):
    mirror = small()
    hostile.write_holes(f"targets/{WANTED}", size)
    return mirror._replace(fault="LengthWrong")


def metadata(name, size):
    hostile.write_holes(f"metadata/{name}", size)
    return small()


def cases(scale):
    """The mirrors of each case, as in `hostile.py`."""
    size = lambda whole: max(whole // scale, 1)
    targets, files = size(20_000), ("large.json", "large.bin")
    return {
        "one": [("first.script", first, (), (1,)), ("one", drawn, (1, size(3_000_000_000)), (1,))],
        "twenty": [("twenty", drawn, (20, size(150_000_000)), (20,))],
        "files": [("files", whole, (write_drawn, 64, size(50_000_000)), (64,))],
        "mirror": [("mirror", whole, (write_drawn, targets, 500_000), (targets,))],
        "holes": [("holes", whole, (write_zeros, targets, 500_000), (targets,))],
        "unwanted": [("unwanted", unwanted, (size(20_000_000_000),), (1,))],
        "many": [("many", many, (targets, 6, 1_000), (1, targets))],
        "longer": [("longer", longer, (size(20_000_000_000),), (1,))],
        "metadata": [(f"metadata {name}", metadata, (name, size(5_000_000_000)), (1,)) for name in files],
    }


def summed():
    """A run of `sha256sum -c` over the files whose digests are listed."""
    status, taken = common.timed(["sha256sum", "-c", "due.sums"])
    if status:
        sys.exit(f"{mirrors.SCRIPT}: sha256sum has status {status}")
    return taken


def measure(name, count, options):
    """Runs the programs in turns, and `sha256sum` if digests are listed. Prints a row for each number of workers, and
    returns what the last program took by each, and what `sha256sum` took, if anything."""
    sums = []
    beside = (lambda: sums.append(summed())) if os.path.exists("due.sums") else lambda: None
    runs = mirrors.measured(name, count, options, beside)
    usual = mirrors.middle(sums) if sums else None
    for workers, taken in runs.items():
        ratio = "-" if taken[-1].end or not sums else f"{taken[-1].seconds / usual.seconds:.2f}"
        behind = f"  {usual.seconds:>9.3f} {ratio:>6}" if sums else ""
        print(mirrors.row(name, count, workers, taken) + behind, flush=True)
    return {workers: taken[-1] for workers, taken in runs.items()}, usual


def is_near(run, other, own):
    """Whether the peak of a run is less than 20 MB above another's, or None if it can't be decided: a peak of no more
    than this script's own may be less."""
    if run.memory - (other.memory if other.memory > own else 0) < 20:
        return None if run.end else True
    return False if run.memory > own and run.memory - other.memory >= 20 else None


def is_within(run, usual, most):
    return None if run.end else run.seconds <= most * usual.seconds


def claims(taken):
    """What should hold of these cases, and whether it does by each number of workers."""
    own = resource.getrusage(resource.RUSAGE_SELF).ru_maxrss // 1024
    if "one" in taken:
        (least, _), (runs, usual) = taken["first.script"], taken["one"]
        near = [is_near(runs[workers], least[workers], own) for workers in runs]
        yield "the peak of `one` is less than 20 MB above that of first.script", near
        yield "`one` takes at most 1.1 times as long as sha256sum", [is_within(it, usual, 1.1) for it in runs.values()]
    if "twenty" in taken:
        runs, usual = taken["twenty"]
        yield "`twenty` takes at most a third as long as sha256sum by 4 workers", [is_within(runs["4"], usual, 1 / 3)]
    if "files" in taken:
        runs, usual = taken["files"]
        half = None if runs["0"].end else runs["0"].processor <= usual.processor / 2
        yield "`files` takes at most half of the processor's time of sha256sum by 0 workers", [half]
        yield "`files` takes at most half as long by 4 workers as by 0", [is_within(runs["4"], runs["0"], 1 / 2)]


def verdict(held):
    return "holds" if all(held) else "doesn't hold" if False in held else "can't be decided"


def read_options():
    parser = mirrors.parser_of(__doc__)
    parser.add_argument("--folder", metavar="FOLDER")
    parser.add_argument("--scale", type=int, default=1, metavar="N")
    options = mirrors.read_options(parser, cases(1))
    options.folder = options.folder and os.path.abspath(options.folder)
    if options.folder and not os.path.isdir(options.folder):
        parser.error(f"no folder {options.folder}")
    if not 1 <= options.scale <= 1_000_000:
        parser.error("--scale is 1 to 1000000")
    return options


def main():
    options = read_options()
    # A forked process counts less of this script's memory as its own than one that shares it until it runs the program.
    subprocess._USE_VFORK = False
    resource.setrlimit(resource.RLIMIT_AS, (MEMORY, resource.getrlimit(resource.RLIMIT_AS)[1]))
    print(f"{mirrors.heads(options.programs)}  sha256sum  ratio")
    taken = {}
    for name, count in mirrors.made(options, cases(options.scale), options.folder):
        taken[name] = measure(name, count, options)
    for claim, held in claims(taken):
        print(f"{claim}: {verdict(held)}")


if __name__ == "__main__":
    main()
