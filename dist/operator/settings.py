"""What tufcheck-run and tufcheck-setup share: the places of a repository's files, and its configuration."""
import argparse
import os
import re

NAME = re.compile(r"[A-Za-z0-9][A-Za-z0-9_-]{0,63}")
# The greatest number of bytes of a configuration.
LONGEST = 65_536
# Exit statuses, above those of tufcheck.
USAGE, MIRROR, MISTAKE, SYSTEM, ROOM, LOCKED, CONFIGURATION = 64, 69, 70, 71, 73, 75, 78


class Failure(Exception):
    """The end of a program, with its exit status."""

    def __init__(self, status, text):
        super().__init__(text)
        self.status = status


class Parser(argparse.ArgumentParser):
    """A parser of whole options, whose errors are failures."""

    def __init__(self, **how):
        super().__init__(allow_abbrev=False, **how)

    def error(self, message):
        raise Failure(USAGE, message)


class Place:
    """The places of the files of the repository NAME, below ROOT."""

    def __init__(self, name, root):
        if not NAME.fullmatch(name):
            raise Failure(USAGE, f"not a name of 1 to 64 letters, digits, - and _: {name}")
        self.name = name
        self.root = os.path.abspath(root)
        self.program = self.at("usr/bin/tufcheck")
        self.conf = self.at(f"etc/tufcheck/{name}.conf")
        self.folder = self.at(f"var/lib/tufcheck/{name}")
        self.state = f"{self.folder}/state"
        self.metrics = self.at(f"var/lib/tufcheck-metrics/{name}.prom")

    def at(self, path):
        """Returns the path below ROOT."""
        return os.path.join(self.root, path)


def path(text):
    """Returns an absolute path that a unit can name, or raises ValueError."""
    parts = text.rstrip("/").split("/")
    if parts[0] or len(parts) == 1 or {"", ".", ".."} & set(parts[1:]):
        raise ValueError("isn't an absolute path without empty parts, . and ..")
    if any(sign in '"\\%' or not sign.isprintable() for sign in text):
        raise ValueError('has a control character, ", \\ or %')
    return text.rstrip("/")


def wanted(text):
    """Returns `every` or the path of a file of paths, or raises ValueError."""
    return text if text == "every" else path(text)


def whole(least, most):
    """Returns a reader of whole numbers, which raises ValueError."""
    def read(text):
        if not re.fullmatch("[0-9]{1,9}", text) or not least <= int(text) <= most:
            raise ValueError(f"isn't a number from {least} to {most}")
        return int(text)
    return read


# What reads the value of each key.
KEYS = {"metadata": path, "targets": path, "want": wanted, "into": path, "fetch": path, "limit": whole(1, 256),
        "workers": whole(0, 64), "soon": whole(1, 3650)}
NEEDED = ("metadata", "targets", "want")


def parse(text, name):
    """Returns the values of the lines `KEY VALUE`. Fails at the first line that isn't one; `name` is the file's."""
    settings = {}
    for number, line in enumerate(text.split("\n"), 1):
        key, _, value = line.strip().partition(" ")
        if not key or key.startswith("#"):
            continue
        try:
            if key not in KEYS:
                raise ValueError("isn't a key")
            if key in settings:
                raise ValueError("is there twice")
            settings[key] = KEYS[key](value.strip())
        except ValueError as error:
            raise Failure(CONFIGURATION, f"{name}: line {number}: {key} {error}") from error
    for key in NEEDED:
        if key not in settings:
            raise Failure(CONFIGURATION, f"{name}: {key} is missing")
    return settings


def read(place):
    """Returns the values of the configuration. Fails if it can't be read, if others than its reader and the superuser may
    write it, or if a line is wrong."""
    try:
        with open(place.conf, "rb") as file:
            found = os.fstat(file.fileno())
            if found.st_uid not in (0, os.geteuid()) or found.st_mode & 0o022:
                raise Failure(CONFIGURATION, f"{place.conf}: somebody else may write it")
            text = file.read(LONGEST + 1)
        if len(text) > LONGEST:
            raise Failure(CONFIGURATION, f"{place.conf}: more than {LONGEST} bytes")
        return parse(text.decode(), place.conf)
    except (OSError, UnicodeDecodeError) as error:
        raise Failure(CONFIGURATION, f"{place.conf}: {error}") from error


def write_whole(path_of, text, mode):
    """Writes a file to a temporary one, flushes it and renames it, so the path has the old file or the new one."""
    new = f"{path_of}.new"
    try:
        with open(new, "w", encoding="utf-8") as file:
            os.fchmod(file.fileno(), mode)
            file.write(text)
            file.flush()
            os.fsync(file.fileno())
        os.replace(new, path_of)
    except OSError:
        if os.path.lexists(new):
            os.remove(new)
        raise
