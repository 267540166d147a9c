"""What crates/writings tries, in its order."""
from plain import (ALL, LOOK, MANY_SLOTS, MOST_SLOTS, QUARTER, Ledger, announce, around, bits, list_lookup, memory, next_word, say,
                   scatter, text, withdraw)
from smallest import by_force, fewest, smallest

WRITE = "write"
ONES = 2**64 - 1
SET_WORDS = 5  # of scratch, for each slot
SLOTS = 512  # where a table is loaded again
ROOM, MOST_ROOM = 64, 2048  # bytes of output: where a few records are to have more than they need, and the most
TEN = 0x0A000000


def records(entries):
    return [announce(int(string.ljust(32, "0"), 2), len(string), hop) for string, hop in entries]


def in_bytes(record):
    address, size, action, hop = record
    return address.to_bytes(4, "big") + bytes([size, action]) + hop.to_bytes(2, "big")


class Writer(Ledger):
    """A ledger that is written, too: with a scratch of so many words, as many as its slots need if None, each of them `fill`, into an
    output of `room` bytes."""

    words, fill, room = None, ONES, ROOM

    def answer(self):
        """The number of a refusal or 0, the count, and the table."""
        if self.whole == 1 or self.words not in (None, SET_WORDS * self.slots):
            return 1, 0, []
        if self.whole:
            return self.whole, 0, []
        entries = smallest(self.routes)
        assert len(entries) == fewest(self.routes) <= len(self.routes)
        if self.room < 8 * len(entries):
            return 11, len(entries), []
        return 0, len(entries), records(entries)

    def write(self):
        number, count, table = self.answer()
        left = "zero" if number in (0, 11) or self.fill == 0 or self.words == 0 else "as it was"
        said = "refused %d" % number if number else "written"
        say("  %s, count %d; scratch %s; rest of output as it was" % (said, count, left))
        if number:
            return
        for record in table:
            say("    %s %s" % (in_bytes(record).hex(" "), text(record)))
        self.look()
        say("    in list" + around(lambda address: list_lookup(table, 8 * count, address)))
        fresh = Writer(SLOTS)
        fresh.room = MOST_ROOM
        say("    loaded: " + fresh.update(table))
        number, count, again = fresh.answer()
        assert number == 0
        say("    again: written, count %d, %s bytes" % (count, "the same" if again == table else "other"))

    def go(self, change):
        if change == WRITE:
            self.write()
        else:
            Ledger.go(self, change)


def trial(title, slots, room, *changes):
    say("-- %s; slots %d, output %d bytes" % (title, slots, room))
    ledger = Writer(slots)
    ledger.room = room
    ledger.run(*changes)


def cases():
    c = [announce(0, 0, 1), announce(0, 2, 2), announce(QUARTER[2], 2, 2), announce(QUARTER[3], 2, 3)]
    # Document 01 gives C's table whole.
    assert b"".join(map(in_bytes, records(smallest({"": 1, "00": 2, "10": 2, "11": 3})))) == bytes.fromhex(
        "00 00 00 00 00 01 00 02  40 00 00 00 02 01 00 01  C0 00 00 00 02 01 00 03")
    j = [announce(0, 0, 1), announce(ALL, 32, 2), WRITE]
    trial("case A", 1, ROOM, LOOK, WRITE)
    trial("case B", 1, ROOM, announce(0, 0, 1), WRITE)
    trial("case C", 6, ROOM, *c, WRITE)
    trial("case O", 6, 23, *c, WRITE)
    trial("case O", 6, 24, *c, WRITE)
    trial("case D", 2, ROOM, announce(0, 0, 1), announce(QUARTER[2], 1, 2), WRITE)
    trial("case E", 2, ROOM, announce(0, 0, 2), announce(QUARTER[2], 1, 1), WRITE)
    trial("cases F and G", 3, ROOM, announce(0, 0, 1), announce(0, 1, 2), announce(QUARTER[2], 1, 2), WRITE, withdraw(0, 1), WRITE)
    trial("case H", 9, ROOM, announce(0, 0, 5), announce(TEN, 8, 5), WRITE)
    trial("case I", 5, ROOM, announce(0, 0, 1), announce(QUARTER[1], 2, 2), announce(QUARTER[2], 2, 3), WRITE)
    trial("case J", 33, ROOM, *j)
    trial("case J", 32, ROOM, *j)
    trial("case K", 1, ROOM, withdraw(0, 0), LOOK, WRITE)
    trial("case L", 1, ROOM, announce(0, 0, 256), announce(0, 0, 257), WRITE, announce(0, 0, 0), WRITE)
    trial("case M", 33, ROOM, announce(0, 0, 1), announce(TEN, 32, 2), announce(TEN, 33, 3), WRITE)
    say("-- case N: 1 slot")
    ledger = Writer(1)
    ledger.odd(7)
    ledger.odd(0)


def discards():
    """Ledgers without a default route, and discards that are announced."""
    trial("all withdrawn", 2, ROOM, announce(QUARTER[2], 1, 1), withdraw(QUARTER[2], 1), WRITE)
    trial("one half", 2, ROOM, announce(0, 1, 1), WRITE)
    trial("both halves", 3, ROOM, announce(0, 1, 1), announce(QUARTER[2], 1, 2), WRITE)
    trial("document 001's example", 6, ROOM, announce(0, 2, 1), announce(QUARTER[1], 3, 1), announce(QUARTER[2], 1, 1), WRITE)
    trial("discard below", 2, ROOM, announce(0, 0, 1), announce(0, 1, 0), WRITE)
    trial("discard above", 2, ROOM, announce(0, 0, 0), announce(QUARTER[2], 1, 1), WRITE)
    trial("discards alone", 2, ROOM, announce(0, 0, 0), announce(QUARTER[2], 1, 0), WRITE)
    trial("a discard is held", 3, ROOM, announce(0, 0, 1), announce(0, 2, 0), announce(QUARTER[2], 1, 2), WRITE,
          withdraw(0, 2), announce(QUARTER[2], 1, 2), WRITE, withdraw(0, 2))


def odd(lengths, words, fill):
    say("-- lo %d, hi %d, up %d, hop %d, scratch %d words of %d" % (*lengths, words, fill))
    ledger = Writer(lengths[0], whole=0 if len(set(lengths)) == 1 and 1 <= lengths[0] <= MOST_SLOTS else 1)
    ledger.words, ledger.fill = words, fill
    ledger.run(announce(0, 0, 1), announce(QUARTER[1], 2, 2), announce(QUARTER[2], 2, 3), WRITE)


def slices():
    for words, fill in [(30, ONES), (30, 0), (29, ONES), (31, ONES), (24, ONES), (12, ONES), (6, ONES), (0, ONES)]:
        odd((6, 6, 6, 6), words, fill)
    odd((0, 0, 0, 0), 0, ONES)
    for shorter in range(4):
        odd([5 if k == shorter else 6 for k in range(4)], 30, ONES)
    trial("no record", 1, 0, WRITE)
    for room in (0, 7, 8, 15):
        trial("one record", 1, room, announce(0, 0, 1), WRITE)
    for room in (7, 8):
        trial("one record, no default route", 2, room, announce(QUARTER[2], 1, 1), WRITE)
    say("-- %d slots" % MANY_SLOTS)
    Writer(MANY_SLOTS).run(announce(0, 0, 1), announce(ALL, 32, 2), WRITE)


def made(*slices):
    """Memory that our calls did not make."""
    memory(*slices, Writer).run(LOOK, WRITE, announce(QUARTER[2], 1, 11), WRITE)


def four(title, *slices):
    say("-- 4 slots: " + title)
    made(*slices)


def memories():
    ones = [ALL] * 12
    for first in (ALL, 13, 12):
        say("-- 12 slots filled with 4294967295, up[0] %d" % first)
        ledger = memory(ones, ones, [first] + ones[1:], ones, Writer)
        for ledger.words in (61, 24, 60):
            ledger.write()
    four("slot 1 is its own child, and slot 0 names it on both sides", [1, 1, 0, 0], [1, 0, 0, 0], [0, 3, 0, 0], [6, 21, 0, 0])
    four("slot 1 is the child of slot 0, slot 2 of slot 1, and slot 2 names slot 1 and itself",
         [1, 2, 1, 0], [0, 0, 2, 0], [0, 1, 3, 0], [6, 31, 32, 0])
    four("slots 0 and 1 both name slot 2, which carries the mark of slot 0", [1, 2, 0, 0], [2, 0, 0, 0], [0, 1, 2, 0], [6, 41, 42, 0])
    for stored, means in ((257, "256"), (258, "none"), (1, "discard")):
        four("the default route's hop is stored as %d, which is %s" % (stored, means),
             [1, 3, 0, 0], [2, 0, 0, 0], [4, 1, 2, 3], [stored, 258, 1, ALL])
    for seed in (1, 265776, 235148, 215029, 176853, 265071, 1348941):
        say("-- 8 slots of pseudo-random words, seed %d" % seed)
        made(*scatter(seed, 8, (8, 8, 9, 7)))


def random_changes(seed):
    """Twice 20 changes and a writing: lengths 0 to 8 and 32, hops 0 and at both ends of each of a set's words."""
    last = seed
    for place in range(42):
        word = next_word(last)
        last = next_word(word)
        size = [0, 1, 2, 3, 4, 5, 6, 7, 8, 32][word // 4 % 10]
        address = (QUARTER + [ALL])[last % 5] if size == 32 else int(bits(last, size).ljust(32, "0"), 2)
        if place % 21 == 20:
            yield WRITE
        elif word % 4 == 0:
            yield withdraw(address, size)
        else:
            yield announce(address, size, [0, 64, 128, 192, 256, 1, 65, 129, 193][word // 40 % 9])


def runs():
    trial("every hop", 512, MOST_ROOM, announce(0, 0, 256), *(announce(k << 24, 8, k + 1) for k in range(256)), WRITE,
          announce(255 << 24, 9, 0), WRITE)
    trial("every length", 33, MOST_ROOM, *(announce(0, size, size % 3 + 1) for size in range(33)), WRITE)
    for seed, slots in ((208, 200), (1950, 120), (1574, 80), (197, 50), (2433, 50)):
        say("-- seed %d" % seed)
        trial("pseudo-random changes", slots, MOST_ROOM, *random_changes(seed))


def tell():
    by_force()
    for part in (cases, discards, slices, memories, runs):
        part()
