"""Changes to journals, each of which `scoop audit` has to find."""
import collections

from systems import ANSWER, BUSY, LOCKED, LOG

# How far before the end of a life a line is changed, empty polls aside. The last ones may have had no effect: what a killed node
# wrote may not be stored, and what a killed client logged may not be sent. At most 64 heard messages share a commit.
TAIL = {"node": 250, "client": 30}


class Journal:
    """The lines of a journal, and their words."""

    def __init__(self, text):
        self.lines = text.decode().splitlines()
        self.words = [line.split() for line in self.lines]
        self.party = self.words[0][3]
        starts = [at for at, line in enumerate(self.words) if line[0] == "scoop"]
        self.lives = list(zip(starts, starts[1:] + [len(self.lines)]))

    def places(self, *words):
        """The lines that begin with these words, and have had an effect."""
        found = []
        for begin, end in self.lives:
            lines = [at for at in range(begin, end) if self.words[at] != ["turn", "none"]]
            found += [at for at in lines[:-TAIL[self.party]] if tuple(self.words[at][:len(words)]) == words]
        return found

    def busiest_life(self):
        """How many entries have run or commands were taken in the life that did most, and where it begins and ends."""
        return max((sum(self.words[at][0] in ("finish", "do") for at in range(begin, end)), begin, end) for begin, end in self.lives)

    def with_lines(self, begin, end, *lines):
        """The text with other lines in the place of these."""
        return ("\n".join(self.lines[:begin] + list(lines) + self.lines[end:]) + "\n").encode()

    def without(self, at):
        return self.with_lines(at, at + 1)

    def with_words(self, at, *words):
        """The text with another line of these words."""
        return self.with_lines(at, at + 1, " ".join(words))


def kind(frame):
    """The kind of a frame in hex digits."""
    return int(frame[6:8], 16)


def last_digit_changed(word):
    return word[:-1] + ("1" if word[-1] != "1" else "2")


def node_changes(journal):
    """For each change to a node's journal, the lines at which it can be made, and its text."""
    words = journal.words
    replies = [at for at in journal.places("hear") if words[at][2] != "none"]
    # A Log that came once: of others the next one would have been the first.
    times = collections.Counter(line[1] for line in words if line[0] == "hear")
    pairs = [at for at in journal.places("begin") if words[at + 1][0] == "finish"]

    def busy(at):
        frame = words[at][2]
        return journal.with_words(at, "hear", words[at][1], frame[:6] + f"{BUSY:02x}" + frame[8:])

    def exchanged(at):
        return journal.with_lines(at, at + 2, journal.lines[at + 1], journal.lines[at])

    return {
        "a reply left out": (replies, lambda at: journal.with_words(at, "hear", words[at][1], "none")),
        "a reply changed": ([at for at in replies if kind(words[at][2]) == LOCKED], busy),
        "an answer changed": ([at for at in replies if kind(words[at][2]) == ANSWER],
                              lambda at: journal.with_words(at, "hear", words[at][1], last_digit_changed(words[at][2]))),
        "a Log left out": ([at for at in replies if kind(words[at][1]) == LOG and times[words[at][1]] == 1], journal.without),
        "a finish left out": (journal.places("finish"), journal.without),
        "two lines exchanged": (pairs, exchanged),
        "an opening state changed": (journal.places("open"),
                                     lambda at: journal.with_words(at, *words[at][:2], last_digit_changed(words[at][2]), words[at][3])),
    }


def client_changes(journal):
    """The same of a client's journal."""
    words = journal.words
    answers = [at for at in journal.places("turn") if len(words[at][1]) > 10 and kind(words[at][1]) == ANSWER]
    return {
        "an answer changed": (answers, lambda at: journal.with_words(at, "turn", last_digit_changed(words[at][1]))),
        "a reserve left out": (journal.places("do", "reserve"), journal.without),
        "a call left out": (journal.places("do", "call"), journal.without),
    }


def changed(text, random):
    """Changed journals with the name of each change."""
    journal = Journal(text)
    changes = node_changes if journal.party == "node" else client_changes
    for name, (places, change) in changes(journal).items():
        if places:
            yield name, change(random.choice(places))
    deeds, begin, end = journal.busiest_life()
    # A life that did nothing isn't missed, and a file without a life is no journal.
    if deeds >= 5 and len(journal.lives) > 1:
        yield "a life left out", journal.with_lines(begin, end)
