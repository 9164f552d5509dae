"""Stores that are lost, changed under a running node, or put back from an old copy: each is noticed, and nothing is made worse."""
import contextlib
import os
import re
import shutil
import sqlite3
import time

from systems import Ran, System, holds, run, same, test

BLOCK = "reserve 1\ncall 1 set 5\nquery 1 get\nend\n"
BOTH = "reserve 1 2\ncall 1 set 5\ncall 2 set 5\nquery 1 get\nend\n"
HINT = "was moved, replaced, deleted or cut while the store was open"
# Such a node ends after some 24 seconds without a datagram.
ENDS = ["--turns", "3000"]


class Cells(System):
    """A node with two cells, and a client."""

    def __init__(self):
        super().__init__({1: (1, "cell", [0]), 2: (1, "cell", [0])}, {7: {}})
        self.store, self.client_store = self.path("node-1.db"), self.path("client-7.db")

    def does(self, *options, block=BLOCK, blocks=1):
        """The client runs blocks, and gets all of its answers."""
        ran = self.asks(7, block * blocks, "--turns", "100000", *options)
        same("the client's status and answers", (ran.status, ran.output.count("answer 5\n")), (0, blocks))
        return ran

    def goes_on(self):
        """Starts the node, which says how far its store goes."""
        node = self.node(1)
        start = f"scoop: {self.store}: goes on; newest blocks: 7."
        holds(f"a note that begins {start!r}", any(line.startswith(start) for line in node.notes().splitlines()), node.notes())
        return node

    def is_refused(self, *hints):
        """The node refuses its store as older, names the first block that it lacks, and changes nothing."""
        before = content(self.store)
        ran = run(*self.words("node", 1, [])[1:])
        same("the status of the node", ran.status, 3)
        for wanted in (f"scoop: {self.store}: it is older than {self.store}.system says\n", lost_block(self.store, *before), *hints):
            holds(f"it says {wanted!r}", wanted in ran.notes, ran.notes)
        same("the store and its text after that", content(self.store), before)


def content(store):
    """What is in a store, and in the text beside it. The log of an open store is written, so its bytes may differ."""
    with open(store + ".system") as file:
        return run("store", store).output, file.read()


def copy(store, to):
    """Copies a store and its log, without the text beside it."""
    for name in ("", "-wal"):
        if os.path.exists(store + name):
            shutil.copy(store + name, to + name)
        elif os.path.exists(to + name):
            os.remove(to + name)


def forget(store, start="newest."):
    """Deletes the lines that say how far the store goes, or those of one handler."""
    with open(store + ".system") as file:
        kept = [line for line in file if not line.startswith(start)]
    with open(store + ".system", "w") as file:
        file.writelines(kept)


def lost_block(store, words, text):
    """The hint that names the first line of the text whose block the store lacks."""
    has, handler = {}, None
    for line in words.splitlines():
        if line.startswith("handler "):
            handler = line.split()[1].rstrip(":")
        mark = re.match(r"  client 7: incarnation (\d+), (?:no block|block (\d+))", line)
        if mark:
            has[handler] = int(mark[1]), int(mark[2] or 0)
    for handler, inc, block in re.findall(r'^newest\.(\d+)\.7 = "7\.(\d+)\.(\d+)"$', text, re.M):
        if has[handler] < (int(inc), int(block)):
            kept = ".".join(map(str, has[handler]))
            return f"handler {handler}: {store}.system has block 7.{inc}.{block}, and the store has 7.{kept}\n"
    raise AssertionError(f"the store has all blocks of its text\n{words}\n{text}")


# ---- stores that are changed under a running node

def ends_the_node(change, name=""):
    """After a block the node's store or its log is changed. The next sixteen blocks end the node, which says why."""
    with Cells() as system:
        node = system.node(1)
        system.does()
        change(system.store + name)
        system.asks(7, BLOCK * 16, "--turns", "300")
        is_told(node)


def is_told(node):
    ended = node.end()
    same("the status of the node", ended.status, 3)
    for wanted in ("scoop: store: Refused\n", HINT):
        holds(f"the node says {wanted!r}", wanted in ended.notes, ended)


@test
def a_deleted_store_ends_its_node():
    ends_the_node(os.remove)


@test
def a_moved_store_ends_its_node():
    ends_the_node(lambda path: os.rename(path, path + ".moved"))


@test
def a_replaced_store_ends_its_node():
    def replace(path):
        shutil.copy(path, path + ".copy")
        os.rename(path + ".copy", path)
    ends_the_node(replace)


@test
def a_deleted_log_ends_its_node():
    ends_the_node(os.remove, "-wal")


@test
def a_store_that_is_deleted_late_is_missed_at_the_end():
    with Cells() as system:
        node = system.node(1, *ENDS)
        system.does()
        os.remove(system.store)
        is_told(node)


@test
def a_damaged_state_has_no_repair():
    with Cells() as system:
        node = system.node(1)
        system.does()
        node.kill()
        with contextlib.closing(sqlite3.connect(system.store)) as store:
            store.execute("UPDATE handlers SET image = x'00' WHERE h = 1")
            store.commit()
        ran = run(*system.words("node", 1, [])[1:])
        same("the status of the node", ran.status, 3)
        for wanted in ("scoop: store: BadImage 1\n", "hint: ", "changed or damaged", "new stores for all nodes and clients"):
            holds(f"it says {wanted!r}", wanted in ran.notes, ran.notes)


# ---- old copies

def goes_further(system, block):
    """The node goes on, and so do its blocks. It writes the text beside its store at most once a second."""
    node = system.goes_on()
    system.does(block=block, blocks=20)
    time.sleep(1.1)
    system.does(block=block, blocks=20)
    node.kill()


@test
def an_old_copy_of_a_killed_nodes_store_is_refused():
    with Cells() as system:
        node, kept, newest = system.node(1), system.path("kept.db"), system.path("newest.db")
        system.does(block=BOTH)
        node.kill()
        copy(system.store, kept)
        goes_further(system, BOTH)
        copy(system.store, newest)
        copy(kept, system.store)
        system.is_refused()
        copy(newest, system.store)
        system.goes_on().kill()
        # Without the lines that say how far it goes, the old copy is taken, as the documents say.
        copy(kept, system.store)
        forget(system.store)
        system.goes_on()


@test
def an_old_copy_that_lacks_blocks_of_one_handler_is_refused():
    with Cells() as system:
        node, kept = system.node(1), system.path("kept.db")
        system.does(block=BOTH)
        node.kill()
        copy(system.store, kept)
        goes_further(system, BLOCK.replace(" 1", " 2"))
        copy(kept, system.store)
        forget(system.store, "newest.1.")
        system.is_refused("hint: handler 2: ")


@test
def an_old_copy_of_an_ended_nodes_store_is_refused():
    with Cells() as system:
        kept = system.path("kept.db")
        for keeps in (lambda: copy(system.store, kept), lambda: copy(kept, system.store)):
            node = system.node(1, *ENDS)
            system.does()
            same("the node's end", node.end().result, (0, "node 1 closed\n"))
            keeps()
        system.is_refused()


@test
def a_killed_nodes_damaged_log_is_refused():
    with Cells() as system:
        node = system.node(1)
        system.does()
        system.does(blocks=20)
        time.sleep(1.1)
        system.does(blocks=20)
        node.kill()
        log = system.store + "-wal"
        with open(log, "r+b") as file:
            # All after this place is rolled back.
            file.seek(os.path.getsize(log) // 3)
            file.write(b"\xff" * 8192)
        system.is_refused()


@test
def an_old_copy_of_a_clients_store_is_refused():
    with Cells() as system:
        system.node(1)
        store, kept = system.client_store, system.path("kept.db")
        system.does()
        copy(store, kept)
        system.does()
        copy(kept, store)
        before = content(store)
        ran = system.asks(7, BLOCK)
        same("the client's status and output", ran.result, (3, ""))
        holds("it says why", ran.notes.startswith(f"scoop: {store}: it is older than {store}.system says\n"), ran.notes)
        same("the store and its text after that", content(store), before)
        system.does("--new", system.path("new.db"), "--after", "2")


@test
def an_old_copy_in_the_folder_of_up_is_refused():
    with Cells() as system:
        file, folder, kept = system.write("up.toml", system.text()), system.path("stores"), system.path("kept.db")
        store = os.path.join(folder, "node-1.db")

        def up():
            return run("up", file, "--dir", folder, text=BLOCK)

        for keeps in (lambda: copy(store, kept), lambda: copy(kept, store)):
            ran = up()
            same("the status and answers of up", (ran.status, ran.output.count("answer 5\n")), (0, 1))
            keeps()
        before = content(store)
        ran = up()
        same("its status and output over the old copy", ran.result, (3, ""))
        wanted = f"scoop: {store}: it is older than {store}.system says\n"
        holds(f"it says {wanted!r}", wanted in ran.notes, ran.notes)
        same("the store and its text after that", content(store), before)


# ---- a client's store that is lost

@test
def a_client_without_its_store_goes_on_above_its_last_incarnation():
    with Cells() as system:
        system.node(1)
        for _ in range(3):
            system.does()
        vain = system.asks(7, BLOCK, "--new", system.path("vain.db"), "--turns", "300")
        same("a new store's status and output without --after", vain.result, (3, ""))
        new = system.path("new.db")
        system.does("--new", new, "--after", "3")
        system.does("--store", new)
        same("the new store", run("store", new), Ran(0, "client 7: last incarnation 5\n", ""))


@test
def wrong_uses_of_after_are_refused():
    with Cells() as system:
        wrong = [["--after", "3"], ["--store", "x", "--after", "3"], ["--store", "x", "--cut", "--after", "3"]]
        wrong += [["--new", "x", "--after", number] for number in ("4294967295", "-1", "one")]
        for options in wrong:
            ran = run("client", "7", "--system", system.file("client", 7), *options)
            same(f"the status and output with {options}", ran.result, (2, ""))
