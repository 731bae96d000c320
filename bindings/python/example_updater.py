"""An updater that fetches from a folder:

    example_updater.py ROOT STATE REPOSITORY SECONDS OUT PATH..

ROOT is the first root file, which is trusted. STATE is the file of the trusted state, which is made
of ROOT if there is no file of its name. REPOSITORY has the folders metadata and targets. SECONDS is
the moment, or `now`. Each wanted target that is accepted is installed in the folder OUT, under its
path. Target files are copied in pieces, into a folder in OUT that is removed at the end, and the
library gets their lengths and digests alone.

The new state, and then each target, is written to another file, flushed and renamed to its place.
STATE isn't below OUT, and one updater runs at a time.

The status is that of the outcome, 3 for a usage error, or 4 if something else fails. Another
transport takes the place of `Fetcher`.
"""

from __future__ import annotations

import hashlib
import os
import pathlib
import shutil
import sys
import tempfile
import time
from typing import BinaryIO, Dict, List, Optional, Union

import tufcheck

PIECE = 1 << 20


def is_below(name: str) -> bool:
    """Whether a name may be opened below a folder: no part between its ``/`` is empty, ``.`` or
    ``..``. Whoever signs a delegated role writes names."""
    return "\0" not in name and not any(part in ("", ".", "..") for part in name.split("/"))


class Fetcher:
    """Fetches files of a repository. Target files go to a folder of their own, by number."""

    def __init__(self, repository: pathlib.Path, downloads: pathlib.Path) -> None:
        self.repository = repository
        self.downloads = downloads
        self.places: Dict[Optional[str], pathlib.Path] = {}

    def __call__(self, need: tufcheck.Need) -> Union[bytes, tufcheck.Digests, None]:
        folder = "metadata" if need.place is tufcheck.Place.METADATA else "targets"
        if not is_below(need.name):
            return None
        try:
            file = (self.repository / folder / need.name).open("rb")
        except OSError as error:
            if not isinstance(error, FileNotFoundError):
                print(f"example_updater: {error}", file=sys.stderr)
            return None
        print("fetched", ascii(need.name))
        with file:
            if need.place is tufcheck.Place.METADATA:
                # One byte more than it may have, by which the library sees that it is too long.
                return file.read(need.most + 1)
            return self.download(file, need)

    def download(self, file: BinaryIO, need: tufcheck.Need) -> tufcheck.Digests:
        sha256, sha512, length = hashlib.sha256(), hashlib.sha512(), 0
        place = self.downloads / str(len(self.places))
        with place.open("wb") as out:
            while length <= need.most:
                piece = file.read(min(PIECE, need.most + 1 - length))
                if not piece:
                    break
                out.write(piece)
                sha256.update(piece)
                sha512.update(piece)
                length += len(piece)
        self.places[need.name] = place
        return tufcheck.Digests(length, sha256.digest(), sha512.digest())


def state_of(root: pathlib.Path, state: pathlib.Path) -> bytes:
    """The trusted state: that of the file, or that of the first root if there is no file of its
    name. Any other error ends the updater: it would forget what was trusted."""
    try:
        state.lstat()
    except FileNotFoundError:
        return tufcheck.first(root.read_bytes())
    return state.read_bytes()


def flush(path: pathlib.Path) -> None:
    """Flushes a file or a folder."""
    opened = os.open(path, os.O_RDONLY)
    try:
        os.fsync(opened)
    finally:
        os.close(opened)


def replace(new: pathlib.Path, path: pathlib.Path) -> None:
    """Replaces a file as a whole, by the file `new`. If something fails before the end, or the
    power does, the file has its old bytes or the new ones."""
    flush(new)
    new.replace(path)
    flush(path.parent)


def keep(state: pathlib.Path, data: bytes) -> None:
    """Replaces the state."""
    new = state.with_name(state.name + ".new")
    try:
        new.write_bytes(data)
        replace(new, state)
    except OSError:
        new.unlink(missing_ok=True)
        raise


def install(download: pathlib.Path, path: pathlib.Path) -> None:
    """Installs a copy of a download, since two paths may have one."""
    path.parent.mkdir(parents=True, exist_ok=True)
    new = download.with_name("new")
    shutil.copyfile(download, new)
    replace(new, path)


def update(root: str, state: str, repository: str, moment: int, out: str, wanted: List[str]) -> int:
    place, room = pathlib.Path(state), pathlib.Path(out)
    job = tufcheck.Job(state_of(pathlib.Path(root), place), wanted, moment)
    room.mkdir(exist_ok=True)
    with tempfile.TemporaryDirectory(prefix=".new-", dir=room) as downloads:
        fetcher = Fetcher(pathlib.Path(repository), pathlib.Path(downloads))
        tufcheck.fetch_all(job, fetcher)
        outcome = job.verify()
        keep(place, outcome.state)
        print("root", outcome.root_version, outcome.end.name,
              outcome.fault.name if outcome.fault else "")
        for path, verdict in outcome.verdicts.items():
            print(ascii(path), verdict.kind.name, verdict.fault.name if verdict.fault else "",
                  verdict.length, ascii(verdict.role))
            if verdict:
                install(fetcher.places[verdict.file], room / path)
    return int(outcome.status)


def main(words: List[str]) -> int:
    root, state, repository, seconds, out, *wanted = words + [""] * (6 - len(words))
    if not all(map(is_below, wanted)) or not (seconds == "now" or seconds.isdecimal()):
        print(__doc__, file=sys.stderr)
        return 3
    try:
        moment = int(time.time()) if seconds == "now" else int(seconds)
        return update(root, state, repository, moment, out, wanted)
    except (OSError, MemoryError, tufcheck.TufcheckError) as error:
        print(f"example_updater: {error}", file=sys.stderr)
        return 4


if __name__ == "__main__":
    sys.exit(main(sys.argv[1:]))
