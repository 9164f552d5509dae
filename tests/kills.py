"""Kills at every moment: what was answered stays, and the rest goes on as if nothing had happened."""
import os
import pty
import sqlite3
import struct
import subprocess
import time

from systems import SCOOP, TOP, Ran, System, holds, run, same, test

# A greeting, a lock, an opening, an unlock, a call that sets the cell to 5, a query, its repeat, and the end of the block.
with open(os.path.join(TOP, "examples", "block.hex")) as _file:
    LINES = _file.read().splitlines(keepends=True)
# The replies by docs/PROTOCOL.md: Welcome, Locked, Opened, Unlocked, Logged 1 and 2, Answer 2 with 5, and Logged 3.
REPLIES = [
    "5351010200000001000000070000000100000000000000000000",
    "5351010400000001000000070000000100000001000000000000",
    "5351010700000001000000070000000100000001000000000000",
    "5351010900000001000000070000000100000001000000000000",
    "5351010b00000001000000070000000100000001000000010000",
    "5351010b00000001000000070000000100000001000000020000",
    "5351010c000000010000000700000001000000010000000200090100000000000000" + "05",
    "5351010b00000001000000070000000100000001000000030000",
]


def answering(system, how, store):
    return system.begin([SCOOP, "answer", how, store])


def goes_on(store, lines):
    """The lines that had no answer, over the store of a killed run."""
    return run("answer", "--store", store, "--words", text="".join(lines))


def begins(store):
    """All lines, over what a run left that was killed before its first answer: a store, a file that --new takes, or one that neither
    option takes, which is removed, as the documents say."""
    for how in ("--store", "--new"):
        ran = run("answer", how, store, "--words", text="".join(LINES))
        if ran.status == 0:
            return ran
        same("the status and output of a refusal", ran.result, (3, ""))
    for end in ("", "-wal"):
        if os.path.exists(store + end):
            os.remove(store + end)
    return run("answer", "--new", store, "--words", text="".join(LINES))


@test
def a_kill_after_each_answer_changes_nothing():
    with System({1: (1, "cell", [0])}, {}) as system:
        for k in range(len(LINES) + 1):
            for pause in (0, 0.02, 0.05) if k else (0, 0.005, 0.01, 0.02, 0.05, 0.1):
                store = system.path(f"killed-{k}-{pause}")
                answer = answering(system, "--new", store)
                got = [answer.ask(line.strip()) for line in LINES[:k]]
                time.sleep(pause)
                answer.kill()
                ran = goes_on(store, LINES[k:]) if k else begins(store)
                same(f"replies and words with a kill after {k} answers", got + ran.output.splitlines(), REPLIES + ["words 5"])


@test
def kills_after_every_answer_change_nothing():
    with System({1: (1, "cell", [0])}, {}) as system:
        store, got = system.path("chain"), []
        for line in LINES:
            answer = answering(system, "--store" if got else "--new", store)
            got.append(answer.ask(line.strip()))
            answer.kill()
        same("the replies", got, REPLIES)
        same("the words", goes_on(store, []), Ran(0, "words 5\n", ""))


@test
def a_node_killed_after_each_reply_answers_as_before():
    lines = [("reserve 1 2", "reserved 7.1.1"), ("query 1 withdraw 30", "answer 70"), ("call 2 deposit 30", "logged 2 1"),
             ("query 2 balance", "answer 130"), ("end", "ended"), ("reserve 1 2", "reserved 7.1.2"), ("query 1 balance", "answer 70"),
             ("query 2 balance", "answer 130"), ("end", "ended")]
    with System({1: (1, "account", [100]), 2: (2, "account", [100])}, {7: {}}) as system:
        nodes = {n: system.node(n) for n in (1, 2)}
        client = system.client(7)
        for place, (line, wanted) in enumerate(lines):
            same(f"the reply to {line!r}", client.ask(line), wanted)
            killed = 1 + place % 2
            nodes[killed].kill()
            nodes[killed] = system.node(killed)
        same("its status and output", client.end().result, (0, ""))


@test
def a_client_killed_after_each_line_is_cut_by_its_next_life():
    # A call goes out with the query after it. So only the lives that got to the query deposit.
    lines = [("reserve 1", "reserved"), ("call 1 deposit 1", "logged 1 1"), ("query 1 balance", "answer"), ("end", "ended")]
    with System({1: (1, "account", [0])}, {7: {}}) as system:
        system.node(1)
        balance = 0
        for count in range(1, len(lines) + 1):
            client = system.client(7)
            balance += count > 2
            for line, wanted in lines[:count]:
                reply = client.ask(line, wanted)
                if wanted == "answer":
                    same("the balance", reply, f"answer {balance}")
            client.kill()
        ran = system.asks(7, "reserve 1\nquery 1 balance\nend\n")
        same("the last life", ran.result, (0, f"reserved 7.5.1\nanswer {balance}\nended\n"))


# ---- a store of version 1

def block(client, incarnation, number):
    return struct.pack(">III", client, incarnation, number)


# Handler 1 with the word 0 and no holder. Client 7's block 7.1.1 is open, three entries received, not ended, no kept answer.
# Its private queue is open, its first pending entry is 1, and has three: set 9, set 8, and the query get.
ENTRIES = [b"\x01\x00\x01\x01" + struct.pack(">Q", 9), b"\x01\x00\x01\x01" + struct.pack(">Q", 8), b"\x02\x00\x02\x00"]
IMAGE = (b"\x01" + struct.pack(">I", 1) + b"\x01" + struct.pack(">Q", 0) + b"\x00"
         + b"\x01" + block(7, 1, 1) + b"\x02" + struct.pack(">I", 3) + b"\x00" + b"\x00"
         + b"\x01" + block(7, 1, 1) + b"\x01" + struct.pack(">I", 1) + b"\x03" + b"".join(ENTRIES))


@test
def a_store_of_version_1_goes_on_as_version_2():
    with System({1: (1, "cell", [0])}, {}) as system:
        store = system.path("old.db")
        with sqlite3.connect(store) as database:
            database.execute("CREATE TABLE meta (id INTEGER PRIMARY KEY, version INTEGER NOT NULL) STRICT")
            database.execute("CREATE TABLE handlers (h INTEGER PRIMARY KEY, image BLOB NOT NULL) STRICT")
            database.execute("CREATE TABLE clients (c INTEGER PRIMARY KEY, inc INTEGER NOT NULL) STRICT")
            database.execute("INSERT INTO meta (id, version) VALUES (1, 1)")
            database.execute("INSERT INTO handlers (h, image) VALUES (1, ?)", (IMAGE,))
            database.execute("INSERT INTO clients (c, inc) VALUES (7, 4)")
        database.close()
        # The last entry comes again: the handler has it (Logged 3) and runs what is pending.
        repeat = b"SQ" + struct.pack(">BBIIIIIH", 1, 10, 1, 7, 1, 1, 3, 4) + ENTRIES[2]
        logged = b"SQ" + struct.pack(">BBIIIIIH", 1, 11, 1, 7, 1, 1, 3, 0)
        answer = b"SQ" + struct.pack(">BBIIIIIH", 1, 12, 1, 7, 1, 1, 3, 9) + b"\x01" + struct.pack(">Q", 8)
        ran = run("answer", "--store", store, "--words", text=(repeat.hex() + "\n") * 2)
        same("its replies and words", ran, Ran(0, f"{logged.hex()}\n{answer.hex()}\nwords 8\n", ""))
        database = sqlite3.connect(store)
        same("its version", database.execute("SELECT version FROM meta").fetchall(), [(2,)])
        same("its incarnations", database.execute("SELECT c, inc FROM clients").fetchall(), [(7, 4)])
        same("a check of the file", database.execute("PRAGMA integrity_check").fetchall(), [("ok",)])
        tables = [name for (name,) in database.execute("SELECT name FROM sqlite_master WHERE type = 'table' ORDER BY name")]
        same("its tables", tables, ["clients", "handlers", "meta", "pending"])
        database.close()


@test
def sqlite_finds_the_stores_of_killed_and_ended_runs_sound():
    with System({1: (1, "cell", [0])}, {}) as system:
        for is_killed in (True, False):
            store = system.path(f"killed-{is_killed}.db")
            answer = answering(system, "--new", store)
            for line, reply in zip(LINES, REPLIES):
                same("a reply", answer.ask(line.strip()), reply)
            if is_killed:
                answer.kill()
            else:
                same("its end", answer.end(), Ran(0, "", ""))
            database = sqlite3.connect(store)
            same("a check of the file", database.execute("PRAGMA integrity_check").fetchall(), [("ok",)])
            database.close()
            same("the words after sqlite had it", goes_on(store, []), Ran(0, "words 5\n", ""))


@test
def a_run_whose_output_is_full_says_how_to_go_on():
    with System({1: (1, "cell", [0])}, {}) as system:
        ours, theirs = pty.openpty()
        with open("/dev/full", "wb") as full:
            words = [SCOOP, "answer", "--new", system.path("full.db")]
            answer = subprocess.Popen(words, stdin=subprocess.PIPE, stdout=full, stderr=theirs)
        os.close(theirs)
        answer.communicate(LINES[0].encode())
        notes = os.read(ours, 4096).decode()
        os.close(ours)
        same("its status", answer.returncode, 3)
        for wanted in ("scoop: write fault", "hint: ", "--store", "repeat the lines without an answer"):
            holds(f"it says {wanted!r}", wanted in notes, notes)
