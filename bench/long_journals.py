#!/usr/bin/env python3
"""Journals of a long run of one node and one client, to measure `scoop audit` with.

usage: long_journals.py FOLDER ENTRIES    writes system.toml, node.journal and client.journal into the folder, so that the node
                                          has about so many entries
       long_journals.py FOLDER ENTRIES PROGRAM    audits them too, and prints the seconds and megabytes that it took
"""
import os, resource, struct, subprocess, sys, time

HELLO, WELCOME, LOCK, LOCKED, OPEN, OPENED, UNLOCK, UNLOCKED, LOG, LOGGED = 1, 2, 3, 4, 6, 7, 8, 9, 10, 11

SYSTEM = """[[node]]
number = 1
address = "127.0.0.1:47101"
[[handler]]
number = 1
node = 1
class = "account"
words = [100]
[[client]]
number = 7
address = "127.0.0.1:47107"
"""


def frame(kind, block, number=0, body=b""):
    """The frame of version 2 in hex digits, at handler 1 and of client 7 in incarnation 1."""
    return (b"SQ" + struct.pack(">BBIIIIIH", 2, kind, 1, 7, 1, block, number, len(body)) + body).hex()


def log(block, number, entry):
    return frame(LOG, block, number, b"\x01" + entry)


def write(folder, entries):
    call = b"\x01" + struct.pack(">HBQ", 1, 1, 5)
    end = b"\x03"
    image = (struct.pack(">BIBQ", 2, 1, 1, 100) + b"\x00\x00\x00").hex()
    with open(f"{folder}/system.toml", "w") as out:
        out.write(SYSTEM)
    with open(f"{folder}/node.journal", "w") as node, open(f"{folder}/client.journal", "w") as client:
        node.write(f"scoop journal 1 node 1\nopen 1 {image} -\nhear {frame(HELLO, 0)} {frame(WELCOME, 0)}\n")
        client.write(f"scoop journal 1 client 7 1 1\nturn {frame(WELCOME, 0)}\n")
        for block in range(1, entries // 9 + 1):
            logged = [frame(LOGGED, block, 1), frame(LOGGED, block, 2)]
            locked, opened, unlocked = frame(LOCKED, block), frame(OPENED, block), frame(UNLOCKED, block)
            node.write(f"hear {frame(LOCK, block)} {locked}\nhear {frame(OPEN, block)} {opened}\nhear {frame(UNLOCK, block)} {unlocked}\n"
                       f"hear {log(block, 1, call)} {logged[0]}\nbegin 1\nfinish 1\nhear {log(block, 2, end)} {logged[1]}\nbegin 1\nfinish 1\n")
            client.write(f"do reserve 1\nturn {locked}\nturn {opened}\nturn {unlocked}\ndo call 1 1 5\nturn {logged[0]}\ndo end\nturn {logged[1]}\n")


def main():
    folder, entries = sys.argv[1], int(sys.argv[2])
    os.makedirs(folder, exist_ok=True)
    write(folder, entries)
    if len(sys.argv) < 4:
        return
    command = [sys.argv[3], "audit", "--system", f"{folder}/system.toml", f"{folder}/node.journal", f"{folder}/client.journal"]
    begin = time.time()
    status = subprocess.run(command).returncode
    used = resource.getrusage(resource.RUSAGE_CHILDREN)
    print(f"status {status}, {time.time() - begin:.1f} s, {used.ru_utime:.1f} s of processor time, {used.ru_maxrss / 1024:.0f} MB")


main()
