"""A plain replay of purses: whether some order of the blocks gives all that their clients were told.

Each handler's first word counts tickets. In each block each handler is asked for a ticket first, so the tickets say in which
order the blocks ran there.
"""

START = 1000
TICKET, DEPOSIT, WITHDRAW, BALANCE = "ticket", "deposit", "withdraw", "balance"

CLASS = """[[class]]
name = "purse"
words = 2
[[class.operation]]
number = 1
name = "ticket"
writes = ["w0 = w0 + 1"]
answer = "w0"
[[class.operation]]
number = 2
name = "deposit"
writes = ["w1 = w1 + a0"]
answer = "w1"
[[class.operation]]
number = 3
name = "withdraw"
test = "a0 <= w1"
writes = ["w1 = w1 - a0"]
answer = "w1"
[[class.operation]]
number = 4
name = "balance"
answer = "w1"
"""


class Entry:
    """What a client asked a handler for, and the answer that it got: `None` if it got none."""

    def __init__(self, handler, operation, amount):
        self.handler, self.operation, self.amount, self.answer = handler, operation, amount, None

    def __repr__(self):
        return f"{self.handler}:{self.operation}({self.amount})={self.answer}"


class Block:
    """A block, as its client was told of it."""

    def __init__(self, name, handlers):
        self.name, self.handlers, self.entries, self.is_ended = name, handlers, [], False

    def at(self, handler):
        return [entry for entry in self.entries if entry.handler == handler]

    def ticket(self, handler):
        """Its ticket there, or `None` if it wasn't told."""
        return next((int(e.answer) for e in self.at(handler) if e.operation == TICKET and e.answer is not None), None)


def run_one(words, entry):
    """What a purse does: its new words, and the answer."""
    tickets, balance = words
    if entry.operation == TICKET:
        return (tickets + 1, balance), str(tickets + 1)
    if entry.operation == WITHDRAW and entry.amount > balance:
        return words, "refused"
    balance += {DEPOSIT: entry.amount, WITHDRAW: -(entry.amount or 0), BALANCE: 0}[entry.operation]
    return (tickets, balance), str(balance)


def results(words, block, handler):
    """The words that a block may leave at a handler. It runs a prefix of what was logged there: all of it if the block ended, and
    at least what was answered. A call that only got `logged` may not have arrived."""
    entries = block.at(handler)
    answered = [place + 1 for place, entry in enumerate(entries) if entry.answer is not None]
    sure = len(entries) if block.is_ended else max(answered, default=0)
    found = {words} if sure == 0 else set()
    for place, entry in enumerate(entries):
        words, answer = run_one(words, entry)
        if entry.answer not in (None, answer):
            return set()
        if place + 1 >= sure:
            found.add(words)
    return found


def reach(states, lost, tickets):
    """The states after blocks whose tickets weren't told, up to this count of tickets. Such a block asked for nothing but its
    ticket, since its client was killed while it waited for that. A state has words, and how many such blocks have run."""
    return {((tickets, balance), used + tickets - had) for (had, balance), used in states
            if had <= tickets and used + tickets - had <= lost}


def faults_at(handler, blocks, last):
    """What is wrong with the blocks of one handler, in the order of their tickets, and with its last words."""
    known = sorted((b for b in blocks if b.ticket(handler) is not None), key=lambda b: b.ticket(handler))
    lost = sum(1 for b in blocks if b.ticket(handler) is None and b.at(handler))
    states = {((0, START), 0)}
    for block in known:
        states = reach(states, lost, block.ticket(handler) - 1)
        states = {(words, used) for before, used in states for words in results(before, block, handler)}
        if not states:
            return [f"handler {handler}: block {block.name} was told what no replay gives: {block.entries}"]
    may_have = {words for words, _ in reach(states, lost, last[0])}
    return [] if last in may_have else [f"handler {handler}: has {last} in the end, and may have {sorted(may_have)[:5]}"]


def disagreement(orders):
    """A pair of blocks on whose order two handlers disagree: a circle in the orders of all handlers together."""
    after = {}
    for names in orders:
        for one, other in zip(names, names[1:]):
            after.setdefault(one, set()).add(other)
    state = {}
    for start in list(after):
        stack = [] if start in state else [(start, iter(after[start]))]
        state.setdefault(start, "open")
        while stack:
            name, others = stack[-1]
            other = next(others, None)
            if other is None:
                state[name] = "done"
                stack.pop()
            elif state.get(other) == "open":
                return [f"the handlers disagree on the order of {name} and {other}"]
            elif other not in state:
                state[other] = "open"
                stack.append((other, iter(after.get(other, ()))))
    return []


def faults(handlers, blocks, last):
    """What is wrong with these blocks. `last` has the words of each handler in the end."""
    found, orders = [], []
    for h in handlers:
        here = [block for block in blocks if h in block.handlers]
        found += faults_at(h, here, last[h])
        known = [block for block in here if block.ticket(h) is not None]
        orders.append([block.name for block in sorted(known, key=lambda block: block.ticket(h))])
    return found + disagreement(orders)
