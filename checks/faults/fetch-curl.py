#!/usr/bin/env python3
"""Checks that examples/fetch-curl.sh stores no more of an answer than the file may have.

    checks/faults/fetch-curl.py [SCRIPT]      examples/fetch-curl.sh unless given; `fetching.sh` is beside it

A server on 127.0.0.1 has a repository, which is signed by `tuf.py` of `checks`. In each case it answers for one
file with 300 MB, without a length (in chunks, or up to the end of the connection) or with one, with a byte more than the
file may have, or with a byte a second. While the script runs, no file that it writes may be longer than the greatest that
is allowed, and at the end none is kept that is too long. An honest server's files have to be fetched, with and without
lengths, and one whose name a URL can't have. `rt run` in crates/tufcheck proves and builds the program, unless PROGRAM in
the environment names another. It prints a line for each case, and ends with status 1 if one fails. It takes a minute, most
of which is the slow answer's.
"""
import http.server
import os
import pathlib
import shutil
import subprocess
import sys
import threading
import time
import urllib.parse

sys.path.insert(0, os.path.dirname(os.path.dirname(os.path.abspath(__file__))))
import common
import tuf

LONG = 300_000_000
PIECE = b"0" * 65_536
# The most bytes of a file that is fetched first, and of the target.
TIMESTAMP, TARGET = "metadata/timestamp.json", "targets/abc.txt"
MOST = {TIMESTAMP: 16_384, TARGET: 3}
WRONG = [(TIMESTAMP, "chunked"), (TIMESTAMP, "closed"), (TIMESTAMP, "length"), (TARGET, "chunked"), (TARGET, "closed"),
         (TARGET, "length"), (TARGET, "extra"), (TIMESTAMP, "slow")]
STRANGE = "a b%41?c#d<e>[f]^`{g|h}&'$i;j+~*.txt"
SECONDS = 120


class Server(http.server.ThreadingHTTPServer):
    """Answers by the files of the repository, and for the file `name` as `how` says."""

    daemon_threads = True
    name = how = None
    sent = 0

    def handle_error(self, request, address):
        """A client that goes away is no fault."""


class Answer(http.server.BaseHTTPRequestHandler):
    protocol_version = "HTTP/1.1"

    def log_message(self, *words):
        pass

    def do_GET(self):
        name = urllib.parse.unquote(self.path.lstrip("/"))
        special = name == self.server.name
        how = self.server.how if special or self.server.name is None else "length"
        file = pathlib.Path("repo", name)
        if special and how != "extra":
            pieces, length = slow() if how == "slow" else [PIECE] * (LONG // len(PIECE)), LONG
        elif file.is_file():
            content = file.read_bytes() + (b"0" if special else b"")
            pieces, length = [content], len(content)
        else:
            return self.send_error(404)
        self.answer(pieces, {"length": ("Content-Length", str(length)), "closed": ("Connection", "close")}.get(
            how, ("Transfer-Encoding", "chunked")))

    def answer(self, pieces, header):
        chunked = header[0] == "Transfer-Encoding"
        self.send_response(200)
        self.send_header(*header)
        self.end_headers()
        for piece in pieces:
            self.wfile.write(b"%x\r\n%s\r\n" % (len(piece), piece) if chunked else piece)
            self.server.sent += len(piece)
        if chunked:
            self.wfile.write(b"0\r\n\r\n")


def slow():
    """A byte a second, of which there may be many."""
    while True:
        yield b"0"
        time.sleep(1)


def largest(room):
    """The length of the longest file there."""
    sizes = [0]
    for folder, _, names in os.walk(room):
        for name in names:
            try:
                sizes.append(os.path.getsize(f"{folder}/{name}"))
            except FileNotFoundError:
                pass
    return max(sizes)


def fetched(script, url, room, limit=SECONDS, path="abc.txt"):
    """Runs the script in a folder of its own. Returns its status (None if it took too long) and the greatest length of a
    file while it ran."""
    for folder in ("new", "temporary"):
        os.makedirs(f"{room}/{folder}")
    words = [script, url, f"{room}/state", f"{room}/new", path]
    env = dict(os.environ, PATH=f"{os.getcwd()}/bin:{os.environ['PATH']}", TMPDIR=os.path.abspath(f"{room}/temporary"),
               PROTOCOL="http")
    shutil.copy("first", f"{room}/state")
    with open(f"{room}/lines", "w") as lines:
        run = subprocess.Popen(["sh", *words], env=env, stdout=lines, stderr=subprocess.STDOUT, start_new_session=True)
    most, end = 0, time.monotonic() + limit
    while run.poll() is None and time.monotonic() < end:
        most = max(most, largest(f"{room}/new"), largest(f"{room}/temporary"))
        time.sleep(0.002)
    if run.poll() is None:
        os.killpg(run.pid, 9)
        run.wait()
        return None, most
    return run.returncode, most


def told(room):
    return pathlib.Path(room, "lines").read_text().strip().replace("\n", "; ")


def cut(server, script, name, how):
    """A wrong answer for one file: what was seen that must not be, or nothing."""
    server.name, server.how, server.sent = name, how, 0
    room = f"{name.replace('/', '-')}-{how}"
    status, most = fetched(script, server.url, room, 60 if how == "slow" else SECONDS)
    kept = pathlib.Path(room, "new", name)
    length = kept.stat().st_size if kept.exists() else 0
    if status is None:
        return "it didn't end"
    if length > MOST[name] + 1 or most > max(MOST.values()) + 1:
        return f"{most} bytes were stored and {length} kept of {MOST[name]}; the server sent {server.sent}"
    if status not in (1, 2):
        return f"status {status}: {told(room)}"
    return None


def honest(server, script, how, path="abc.txt"):
    """An honest server: what was seen that must not be, or nothing."""
    server.name, server.how = None, how
    room = f"honest-{how}-{path == STRANGE}"
    status, _ = fetched(script, server.url, room, path=path)
    lines = told(room)
    return None if status == 0 and lines.endswith(f'ok "{path}" 3 "targets"') else f"status {status}: {lines}"


def elsewhere(script):
    """A URL of another protocol than the environment's."""
    status, _ = fetched(script, f"file://{os.getcwd()}/repo", "elsewhere")
    return None if status not in (0, None) else f"a URL `file:` was fetched: status {status}"


def prepare(server):
    os.mkdir("bin")
    os.symlink(common.PROGRAM, "bin/tufcheck")
    tuf.repository("repo", tuf.Key(1, 4), {"abc.txt": b"abc", STRANGE: b"abc"})
    common.run("init", "repo/metadata/1.root.json", "--out", "first", check=True)
    server.url = f"http://127.0.0.1:{server.server_address[1]}"
    threading.Thread(target=server.serve_forever, daemon=True).start()


def cases(server, script):
    """The names of the cases, each with its check."""
    for how in ("length", "chunked", "closed"):
        yield f"an honest server, {how}", lambda: honest(server, script, how)
    yield "a name that a URL can't have", lambda: honest(server, script, "length", STRANGE)
    for name, how in WRONG:
        yield f"{name}, {how}", lambda: cut(server, script, name, how)
    yield "a file of the own machine", lambda: elsewhere(script)


def main():
    script = os.path.abspath(sys.argv[1] if len(sys.argv) > 1 else f"{common.TOP}/examples/fetch-curl.sh")
    done = []
    with common.room(), Server(("127.0.0.1", 0), Answer) as server:
        prepare(server)
        for name, check in cases(server, script):
            seen = check()
            done.append(common.told("FAILS" if seen else "ok", name, seen))
        server.shutdown()
    sys.exit(common.counted(done))


main()
