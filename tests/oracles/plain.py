"""Document 01, with the items 2 and 3 of document 02, in plain Python, for the programs' oracles.

A ledger here is a dictionary from bit strings to hops, 0 where a discard is held; no slot is simulated, and lookup tries every
prefix. Memory that our calls did not make is read as docs/LAYOUT.md says."""
ALL = 2**32 - 1  # 255.255.255.255
HIGHEST_HOP, MOST_SLOTS = 256, 2**20
MANY_SLOTS = 4096  # more than any other trial lends; the most are lent in tests/outside
QUARTER = [k << 30 for k in range(4)]
NAMES = {1: "announce", 2: "withdraw"}
lines = []


def say(line):
    lines.append(line)


# Records

def announce(address, size, hop):
    return (address, size, 1, hop)


def withdraw(address, size):
    return (address, size, 2, 0)


def dotted(address):
    return ".".join(str(address >> k & 255) for k in (24, 16, 8, 0))


def bits(address, size):
    return format(address, "032b")[:size]


def text(record):
    address, size, action, hop = record
    return "%s %s/%d hop %d" % (NAMES.get(action, "action %d" % action), dotted(address), size, hop)


def fault(record, withdrawals):
    """The rules 4 to 7, in order."""
    address, size, action, hop = record
    if size > 32:
        return 4
    if "1" in format(address, "032b")[size:]:
        return 5
    if action not in ((1, 2) if withdrawals else (1,)):
        return 6
    if (action == 1 and hop > HIGHEST_HOP) or (action == 2 and hop != 0):
        return 7
    return 0


# The ledger

def needs(routes):
    return len({""} | {prefix[:k] for prefix in routes for k in range(1, len(prefix) + 1)})


def longest(routes, address):
    for k in range(32, -1, -1):
        if bits(address, k) in routes:
            return "hop %d" % routes[bits(address, k)]
    return "hop 0"


def around(lookup):
    """The addresses at which programs look."""
    return "".join("; %s %s" % (dotted(address), lookup(address)) for address in QUARTER + [ALL])


class Ledger:
    """`whole` is the refusal of every whole call, 1 or 2, or 0."""

    def __init__(self, slots, routes=None, whole=0):
        self.slots, self.routes, self.whole = slots, dict(routes or {}), whole

    def one(self, record):
        number = fault(record, True)
        if number:
            return number
        prefix = bits(record[0], record[1])
        after = dict(self.routes)
        if record[2] == 2:
            if prefix not in after:
                return 8
            del after[prefix]
        else:
            after[prefix] = record[3]
        if needs(after) > self.slots:
            return 9
        self.routes = after
        return 0

    def update(self, records, odd_bytes=0):
        if self.whole:
            return "refused %d, count 0" % self.whole
        if odd_bytes:
            return "refused 3, count 0"
        for count, record in enumerate(records):
            number = self.one(record)
            if number:
                return "refused %d, count %d" % (number, count)
        return "complete, count %d" % len(records)

    def lookup(self, address):
        return "refused %d, place 0" % self.whole if self.whole else longest(self.routes, address)

    def look(self):
        say("    lookups" + around(self.lookup))

    def go(self, change):
        if change == LOOK:
            self.look()
        else:
            say("  %s: %s" % (text(change), self.update([change])))

    def run(self, *changes):
        for change in changes:
            self.go(change)

    def odd(self, count):
        say("  %d bytes: %s" % (count, self.update([], count % 8)))


LOOK = "look"


def list_lookup(records, count, address):
    if count % 8:
        return "refused 3, place 0"
    routes = {}
    for place, record in enumerate(records[:count // 8]):
        number = fault(record, False)
        if number:
            return "refused %d, place %d" % (number, place)
        routes[bits(record[0], record[1])] = record[3]
    return longest(routes, address)


# Memory that our calls did not make

def read(lo, hi, up, hop):
    """docs/LAYOUT.md: a link counts if the slot that it names carries the mark of this parent and this side."""
    routes = {}

    def walk(string, slot):
        if 1 <= hop[slot] <= HIGHEST_HOP + 1:
            routes[string] = hop[slot] - 1
        if len(string) < 32:
            for bit, link in ((0, lo[slot]), (1, hi[slot])):
                if 0 < link < len(up) and up[link] == 2 * slot + 1 + bit:
                    walk(string + str(bit), link)
    walk("", 0)
    return routes


def memory(lo, hi, up, hop, kind=Ledger):
    return kind(len(up), read(lo, hi, up, hop), 2 if up[0] > len(up) else 0)


def next_word(word):
    word ^= word << 13 & ALL
    word ^= word >> 17
    return (word ^ word << 5) & ALL


def scatter(seed, slots, bounds):
    """The four slices, filled one after the other."""
    word, slices = seed, []
    for bound in bounds:
        cells = []
        for _ in range(slots):
            word = next_word(word)
            cells.append(word % bound)
        slices.append(cells)
    return slices
