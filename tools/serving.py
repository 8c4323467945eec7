"""The built program while it serves, for the scripts of tools/ and bench/ that ask it."""
import os
import re
import socket
import subprocess
import sys
import time

ROOT = os.path.dirname(os.path.dirname(os.path.abspath(__file__)))
PROGRAM = os.path.join(ROOT, "crates", "act_desk", "out", "act_desk")
HOST = "127.0.0.1"


def free_port():
    with socket.socket() as taken:
        taken.bind((HOST, 0))
        return taken.getsockname()[1]


class Serving:
    """The program, which serves so many connections over a store, memory where none is named, until the block ends.

    Until it listens it has some seconds, which a large store takes to open. `settings` is its environment. Where another program is
    named, that is started; `book` is the word of another book than that of thirty."""

    def __init__(self, workers=4, connections=1_000, words=None, store="-", seconds=10, settings=None, program=PROGRAM, book=""):
        self.port = free_port()
        self.words = words or [*([book] if book else []), store, "serve", "--port", "PORT", "--workers", str(workers),
                               "--connections", str(connections)]
        self.seconds = seconds
        self.settings = settings
        self.path = program

    def start(self):
        """Starts the program; it may not listen yet."""
        if not os.path.exists(self.path):
            print(f"no program at {self.path}: `rt ci` builds it", file=sys.stderr)
            sys.exit(2)
        words = [str(self.port) if word == "PORT" else word for word in self.words]
        self.program = subprocess.Popen([self.path, *words], stdin=subprocess.DEVNULL, env=self.settings)

    def listens(self):
        """Whether the program listens, before it ends and its seconds are over. It serves a connection for that."""
        end = time.monotonic() + self.seconds
        while self.program.poll() is None and time.monotonic() < end:
            try:
                socket.create_connection((HOST, self.port), timeout=1).close()
                return True
            except ConnectionRefusedError:
                time.sleep(0.01)
        return False

    def __enter__(self):
        self.start()
        if not self.listens():
            self.program.kill()
            sys.exit(f"the program doesn't listen: it ended with {self.program.wait()}")
        return self

    def __exit__(self, *_):
        self.end()

    def end(self):
        """Ends the program as `kill` does."""
        self.program.terminate()
        self.program.wait()

    def kill(self):
        """Ends the program as `kill -9` does."""
        self.program.kill()
        self.program.wait()

    def connect(self):
        return socket.create_connection((HOST, self.port), timeout=60)

    def memory(self):
        """The memory that the program holds now, in kilobytes."""
        with open(f"/proc/{self.program.pid}/status", encoding="ascii") as status:
            return int(re.findall(r"VmRSS:\s+(\d+) kB", status.read())[0])

    def descriptors(self):
        """How many files and sockets the program has open now."""
        return len(os.listdir(f"/proc/{self.program.pid}/fd"))


def reply_in(connection):
    """The bytes of one reply, by its content-length; fewer where the connection is closed before."""
    got = b""
    while b"\r\n\r\n" not in got:
        more = connection.recv(65_536)
        if not more:
            return got
        got += more
    head, _, body = got.partition(b"\r\n\r\n")
    length = re.search(rb"\r\ncontent-length: (\d+)", head)
    wanted = int(length.group(1)) if length else 0
    reply = bytearray(head + b"\r\n\r\n" + body)
    left = wanted - len(body)
    while left > 0:
        more = connection.recv(1 << 20)
        if not more:
            break
        reply += more
        left -= len(more)
    return bytes(reply)


def told(reply):
    """The status and the body of a reply; None where the connection was closed before all of it came."""
    head, end, body = reply.partition(b"\r\n\r\n")
    length = re.search(rb"\r\ncontent-length: (\d+)", head)
    if not end or not length or int(length.group(1)) != len(body):
        return None
    return int(head.split(b" ", 2)[1]), body


def request(line, caller="ann", body=b"", rev=None, fields=()):
    """The bytes of a request, of no caller where that is None. One that is neither `GET` nor `DELETE` has a length."""
    lines = [f"{line} HTTP/1.1", *([f"x-caller: {caller}"] if caller is not None else []), *fields]
    if rev is not None:
        lines.append(f"x-rev: {rev}")
    if body or line.split()[0] in ("PUT", "POST"):
        lines.append(f"content-length: {len(body)}")
    return ("\r\n".join(lines) + "\r\n\r\n").encode() + body
