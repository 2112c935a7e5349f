"""The work that is measured, as lines of scripts over the sample table.

A script makes a history and then does some work on it, one piece after the other; each piece is timed by itself. All is
chosen from fixed seeds, so each run has the same lines.
"""

import random

KEYS = 100
FIRST = 1000
GAP = 10
ROWS_OF_A_STATEMENT = 100
ROWS_OF_A_COMMIT = 1000
SELECT = "1: SELECT * FROM emp"


def inserts(keys, name):
    """INSERT statements of the rows with these keys, 100 rows each."""
    keys = list(keys)
    for start in range(0, len(keys), ROWS_OF_A_STATEMENT):
        rows = ", ".join(f"({key}, '{name}')" for key in keys[start:start + ROWS_OF_A_STATEMENT])
        yield f"1: INSERT INTO emp VALUES {rows}"


class History:
    """Some keys, and then commits of one row each, at a random key, or of all rows."""

    def __init__(self, keys=0, commits=0, of_all=False):
        self.keys, self.commits, self.of_all = keys, commits, of_all
        self.loads = -(-keys // ROWS_OF_A_COMMIT)
        self.number = 0

    @property
    def versions(self):
        return self.keys + self.commits * (self.keys if self.of_all else 1)

    def some_instant(self, chosen):
        """An instant of the history, at or after its last load."""
        commit = chosen.randrange(self.loads - 1, self.loads + self.commits)
        return FIRST + GAP * commit + chosen.randrange(GAP)

    def some_key(self, chosen):
        return chosen.randrange(1, self.keys + 1)

    def commit(self, changes):
        """A transaction with these lines, at the next instant."""
        yield f"clock: {FIRST + GAP * self.number}"
        yield "1: BEGIN"
        yield from changes
        yield "1: COMMIT"
        self.number += 1

    def update(self, chosen):
        return self.commit([f"1: UPDATE emp SET name = 'v{self.number}' WHERE no = {self.some_key(chosen)}"])

    def lines(self):
        chosen = random.Random(11)
        self.number = 0
        for first in range(1, self.keys + 1, ROWS_OF_A_COMMIT):
            yield from self.commit(inserts(range(first, min(first + ROWS_OF_A_COMMIT, self.keys + 1)), "first"))
        for _ in range(self.commits):
            if self.of_all:
                yield from self.commit([f"1: UPDATE emp SET name = 'v{self.number}'"])
            else:
                yield from self.update(chosen)


class Piece:
    """A piece of work: what is counted, how often, and the call that gives its lines."""

    def __init__(self, words, count, work):
        self.words, self.count, self.work = words, count, work

    def lines(self, history):
        return self.work(history, self.count, random.Random(12))


def commits(history, count, chosen):
    for _ in range(count):
        yield from history.update(chosen)


def long_transactions(history, count, _chosen):
    for number in range(count):
        keys = range(1, KEYS + 1)
        yield from history.commit(f"1: UPDATE emp SET name = 'b{number}' WHERE no = {key}" for key in keys)


def as_of_one(history, count, chosen):
    for _ in range(count):
        yield f"{SELECT} FOR SYSTEM_TIME AS OF {history.some_instant(chosen)} WHERE no = {history.some_key(chosen)}"


def as_of_all(history, count, chosen):
    for _ in range(count):
        yield f"{SELECT} FOR SYSTEM_TIME AS OF {history.some_instant(chosen)}"


def periods(history, count, chosen):
    for number in range(count):
        first, last = sorted(history.some_instant(chosen) for _ in range(2))
        form = f"FROM {first} TO {last}" if number % 2 else f"BETWEEN {first} AND {last}"
        yield f"{SELECT} FOR SYSTEM_TIME {form} WHERE no = {history.some_key(chosen)}"


def new_keys(number):
    return range(number * ROWS_OF_A_COMMIT + 1, (number + 1) * ROWS_OF_A_COMMIT + 1)


def single_inserts(history, count, _chosen):
    for number in range(count):
        yield from history.commit(f"1: INSERT INTO emp VALUES ({key}, 'first')" for key in new_keys(number))


def wide_inserts(history, count, _chosen):
    for number in range(count):
        yield from history.commit(inserts(new_keys(number), "first"))


def wide_update(history, number, chosen):
    low = chosen.randrange(1, history.keys - ROWS_OF_A_COMMIT + 2)
    return f"1: UPDATE emp SET name = 'w{number}' WHERE no >= {low} AND no < {low + ROWS_OF_A_COMMIT}"


def wide_updates_rolled_back(history, count, chosen):
    for number in range(count):
        yield from ("1: BEGIN", wide_update(history, number, chosen), "1: ROLLBACK")


def wide_updates(history, count, chosen):
    for number in range(count):
        yield from history.commit([wide_update(history, number, chosen)])


def key_queries(_history, count, _chosen):
    for _ in range(count):
        yield f"{SELECT} WHERE no = 1"


def scripts(scale=1.0):
    """Histories with the work on them, in the order of the table; `scale` makes all smaller for a check."""

    def some(number):
        return max(2, int(number * scale))

    wide = max(2 * ROWS_OF_A_COMMIT, some(100_000))
    yield History(KEYS), [Piece("a commit of one row of 100 (4 lines)", some(20_000), commits)]
    yield History(KEYS), [Piece("a transaction of 100 single-row UPDATEs", some(200), long_transactions)]
    yield History(KEYS, some(20_000)), [
        Piece("AS OF one of 100 keys, 20,000 versions", some(200_000), as_of_one),
        Piece("AS OF all 100 keys, 20,000 versions", some(5_000), as_of_all),
        Piece("FROM .. TO and BETWEEN of one key, 20,000 versions", some(10_000), periods),
    ]
    yield History(wide), [
        Piece("AS OF one of 100,000 keys", some(200_000), as_of_one),
        Piece("an UPDATE of 1,000 rows of 100,000, rolled back", some(200), wide_updates_rolled_back),
        Piece("the same, committed", some(200), wide_updates),
    ]
    yield History(), [
        Piece("a SELECT of one key of an empty table", some(300_000), key_queries),
        Piece("a transaction of 1,000 INSERTs of one row", some(50), single_inserts),
    ]
    yield History(), [Piece("a transaction of 10 INSERTs of 100 rows", some(50), wide_inserts)]


def growing_script(versions, scale=1.0):
    """A history of so many versions of 100 keys, by commits of all rows, with the work on it."""

    def some(number):
        return max(2, int(number * scale))

    return History(KEYS, versions // KEYS - 1, of_all=True), [
        Piece("AS OF one key", some(200_000), as_of_one),
        Piece("AS OF all 100 keys", some(5_000), as_of_all),
        Piece("a commit of one row", some(10_000), commits),
    ]
