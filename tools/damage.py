"""Stores that are cut short, on a full disk, or that can't be written, for tools/crash.

Each case gives what came of it, and a list of differences. What the program may do is end with a named status, or refuse
a request by name; it never ends otherwise, and what it shows is what it acknowledged.
"""
import contextlib
import json
import os
import re
import sqlite3
import subprocess
import tempfile

from serving import PROGRAM, Serving, reply_in, request, told
from stores import FILES, NOT_KEPT, STORE_FAULT, contents, copy_store, ran

PAGE, FRAME_HEAD, LOG_HEAD = 4_096, 24, 32
PAGES = 24
REFUSED = {(503, b'{"number":23,"refused":"KeeperFault"}'), (507, b'{"number":24,"refused":"OutOfMemory"}')}


def page(number):
    """A snapshot of some kilobytes, which differs for each number."""
    rows = [{"n": 1, "p": None, "tag": "html", "attrs": [["lang", "en"]]}]
    rows += [{"n": node, "p": 1, "tag": "p", "attrs": [["title", f"part {node} of {number}"]]} for node in range(2, 50)]
    return json.dumps({"url": f"https://example.org/{number}", "nodes": rows}).encode()


def ask(desk, line, body=b"", rev=None):
    """The status and body of a reply over a connection of its own; None where there is none."""
    with desk.connect() as link:
        link.sendall(request(line, body=body, rev=rev))
        try:
            return told(reply_in(link))
        except ConnectionError:
            return None


def put(desk, number):
    return ask(desk, f"PUT /sites/acme/pages/p{number:03}", page(number), 0)


def filled(folder):
    """Makes a store in a folder, and gives the CSV of its site after each put."""
    states = []
    with Serving(workers=1, store=os.path.join(folder, "desk.db"), seconds=600) as desk:
        ask(desk, "PUT /sites/acme")
        for number in range(PAGES):
            put(desk, number)
            states.append(ask(desk, "GET /sites/acme/csv")[1].decode())
    return states


def cut_store(folder, name, length):
    """What a run over a copy of the store says of which one file is cut to this length."""
    with tempfile.TemporaryDirectory() as copy:
        copy_store(folder, copy)
        os.truncate(os.path.join(copy, name), length)
        return ran(PROGRAM, copy, "desk.db", "csv", "acme")


def taken_over(folder):
    """Has SQLite take the log over into the file, so that the file holds all."""
    with contextlib.closing(sqlite3.connect(os.path.join(folder, "desk.db"))) as store:
        store.execute("PRAGMA wal_checkpoint(TRUNCATE)")


def cut_file():
    """The file of a store that is cut short at each page: it is refused, or nothing of it was needed."""
    with tempfile.TemporaryDirectory() as folder:
        whole = (0, filled(folder)[-1], "")
        taken_over(folder)
        pages = os.path.getsize(os.path.join(folder, "desk.db")) // PAGE
        differ, faults = [], 0
        for place in range(1, pages):
            for length in (place * PAGE, place * PAGE - PAGE // 2):
                found = cut_store(folder, "desk.db", length)
                faults += found == STORE_FAULT
                if found not in (STORE_FAULT, whole):
                    differ.append(f"cut to {length} bytes: {found}")
        empty = cut_store(folder, "desk.db", 0)
        if empty != NOT_KEPT:
            differ.append(f"cut to nothing: {empty}, and an empty file is an empty store")
    return f"{pages} pages, each cut off and cut in half: {faults} store faults", differ


def cut_log():
    """The log of a store that is cut short within and after each of its pages: what is left is one of the states that were
    acknowledged, an earlier one the more is cut; or it is refused."""
    with tempfile.TemporaryDirectory() as folder:
        states = filled(folder)
        size = os.path.getsize(os.path.join(folder, "desk.db-wal"))
        frames = (size - LOG_HEAD) // (PAGE + FRAME_HEAD)
        differ, last, faults = [], -1, 0
        for frame in range(frames + 1):
            for more in (0, FRAME_HEAD, FRAME_HEAD + PAGE // 2):
                length = LOG_HEAD + frame * (PAGE + FRAME_HEAD) + more
                if length > size:
                    continue
                status, out, err = found = cut_store(folder, "desk.db-wal", length)
                faults += found == STORE_FAULT
                state = states.index(out) if status == 0 and out in states else -1
                if (state < 0 and found not in (STORE_FAULT, NOT_KEPT) and out.count("\n") != 1) or state < last:
                    differ.append(f"cut to {length} bytes: {status} {err} {out[:80]} after state {last}")
                last = max(last, state)
        if last != len(states) - 1:
            differ.append(f"the whole log gives state {last} of {len(states) - 1}")
    return f"{frames} pages, each cut off and cut in two: {faults} store faults, up to all {last + 1} puts", differ


@contextlib.contextmanager
def small_disk():
    """A disk of 1 MB as a folder; None where this machine or user can't have one."""
    with tempfile.TemporaryDirectory() as folder:
        made = subprocess.run(["mount", "-t", "tmpfs", "-o", "size=1m", "tmpfs", folder], capture_output=True, check=False)
        if made.returncode:
            yield None
            return
        try:
            yield folder
        finally:
            subprocess.run(["umount", folder], check=True)


def remounted(folder, options):
    subprocess.run(["mount", "-o", f"remount,{options}", folder], check=True)


def shown(desk):
    """The pages that a desk shows of the site, by their revisions; its reply where it shows none."""
    reply = ask(desk, "GET /sites/acme/report")
    if reply is None or reply[0] != 200:
        return reply
    return re.findall(r"^page (\S+) rev (\d+) ", reply[1].decode(), re.MULTILINE)


def full_disk():
    """A store on a disk that gets full: puts are refused by name, and those that were acknowledged are kept."""
    with small_disk() as folder:
        if folder is None:
            return "left out, since no tmpfs can be mounted here", []
        differ, acknowledged, refused = [], [], set()
        with Serving(workers=1, store=os.path.join(folder, "desk.db"), seconds=600) as desk:
            ask(desk, "PUT /sites/acme")
            for number in range(400):
                reply = put(desk, number)
                if reply is not None and reply[0] == 200:
                    acknowledged.append((f"p{number:03}", str(json.loads(reply[1])["rev"])))
                    continue
                refused.add(reply)
                if shown(desk) != acknowledged and shown(desk) not in REFUSED:
                    differ.append(f"after a refused put the desk shows {str(shown(desk))[:80]}")
        if not refused or not refused <= REFUSED:
            differ.append(f"puts on a full disk are refused by {refused}")
        status = ran(PROGRAM, folder, "desk.db", "report", "acme")
        if status[0] not in (0, 6, 8):
            differ.append(f"on the full disk the next program ends with {status}")
        remounted(folder, "size=16m")
        with Serving(workers=1, store=os.path.join(folder, "desk.db"), seconds=600) as desk:
            if shown(desk) != acknowledged:
                differ.append(f"with room again it shows {str(shown(desk))[:80]}, not {len(acknowledged)} pages")
            if (reply := put(desk, 999)) is None or reply[0] != 200:
                differ.append(f"with room again a put is answered by {reply}")
        names = sorted(json.loads(body)["refused"] for _, body in refused & REFUSED)
        return f"{len(acknowledged)} puts acknowledged and kept, then {' and '.join(names)}; the next program ends with {status[0]}", differ


def not_written():
    """A store that can't be written is refused, and stays as it is."""
    with small_disk() as folder:
        if folder is None:
            return "left out, since no tmpfs can be mounted here", []
        filled_some = Serving(workers=1, store=os.path.join(folder, "desk.db"), seconds=600)
        with filled_some as desk:
            ask(desk, "PUT /sites/acme")
            put(desk, 1)
        before = [contents(os.path.join(folder, name)) for name in FILES]
        remounted(folder, "ro")
        differ = []
        found = ran(PROGRAM, folder, "desk.db", "csv", "acme")
        if found != STORE_FAULT:
            differ.append(f"it is answered by {found}")
        remounted(folder, "rw")
        if [contents(os.path.join(folder, name)) for name in FILES] != before:
            differ.append("it has changed")
        return "store fault", differ


CASES = {"the file cut short": cut_file, "the log cut short": cut_log, "a full disk": full_disk, "a disk that can't be written": not_written}
