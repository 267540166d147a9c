"""What crates/trials tries, in its order."""
from plain import ALL, LOOK, MANY_SLOTS, MOST_SLOTS, QUARTER, Ledger, announce, dotted, list_lookup, memory, say, scatter, text, withdraw

FIVE = [announce(0, 0, 1), announce(0, 4, 2), announce(QUARTER[1], 2, 3), announce(QUARTER[2], 2, 4), announce(QUARTER[3], 3, 5)]
TEN = 0x0A000000


def refusals():
    say("-- update: a refused record in a list")
    for bad in [announce(TEN, 33, 1), announce(TEN + 1, 8, 1), (TEN, 8, 3, 1), announce(TEN, 8, 257), withdraw(0, 1), announce(ALL, 32, 6)]:
        for place in (0, 2, 4):
            say("five records with %s at %d" % (text(bad), place))
            records = list(FIVE)
            records[place] = bad
            ledger = Ledger(10)
            for what, part in (("list", records), ("rest", records[place + 1:])):
                say("  the %s: %s" % (what, ledger.update(part)))
                ledger.look()


def one_record():
    ledger = Ledger(65)
    say("-- update: the first rule that is broken gives the number")
    ledger.run((TEN + 1, 33, 3, 257), (TEN + 1, 8, 3, 257), (TEN, 8, 3, 257), (TEN, 8, 2, 1), withdraw(TEN, 8), LOOK)
    say("-- update: /0 and /32 announced and replaced")
    ledger.run(announce(0, 0, 1), announce(0, 32, 2), announce(ALL, 32, 3), LOOK)
    ledger.run(announce(0, 0, 64), announce(0, 32, 65), announce(ALL, 32, 256), LOOK)
    say("-- the same memory: 0 bytes, 7 bytes, 15 bytes")
    for count in (0, 7, 15):
        ledger.odd(count)
    ledger.look()
    say("-- the same memory: /0 and /32 withdrawn")
    ledger.run(withdraw(0, 0), LOOK, withdraw(0, 32), withdraw(ALL, 32), LOOK, withdraw(0, 0), withdraw(ALL, 32))
    say("-- update: edges of the rules 4 to 7")
    ledger.run(announce(0, 255, 1), announce(QUARTER[2], 0, 1), announce(ALL, 31, 1), (0, 0, 0, 1), (0, 0, 255, 1))
    ledger.run(announce(0, 0, 257), announce(0, 0, 512), announce(0, 0, 256), LOOK, announce(0, 0, 0), LOOK)


def list_lookups():
    say("-- list lookup: a refused record")
    for bad in [announce(TEN, 33, 1), announce(TEN + 1, 8, 1), (TEN, 8, 3, 1), announce(TEN, 8, 257), withdraw(0, 0), (0, 0, 2, 1)]:
        for place in (0, 2, 4):
            records = list(FIVE)
            records[place] = bad
            say("  five records with %s at %d, lookup of 0.0.0.0: %s" % (text(bad), place, list_lookup(records, 40, 0)))
    twice = [announce(ALL, 32, 1), announce(QUARTER[2], 1, 2), announce(ALL, 32, 3), announce(QUARTER[2], 1, 256), announce(0, 32, 5)]
    tries = [(0, 0), (7, ALL), (8, ALL), (16, ALL), (16, ALL - 1), (24, ALL), (39, ALL), (40, ALL), (40, ALL - 1),
             (40, QUARTER[2]), (40, QUARTER[2] - 1), (40, 1), (40, 0)]
    tries_of_five = [(8, ALL), (40, 0), (40, 0x0FFFFFFF), (40, 0x10000000), (40, 0xDFFFFFFF), (40, ALL)]
    discards = [announce(0, 0, 64), announce(QUARTER[2], 1, 0), announce(QUARTER[3], 2, 2), announce(QUARTER[3], 2, 0),
                announce(ALL, 32, 65)]
    tries_of_discards = [(8, ALL), (16, ALL), (24, ALL), (32, ALL), (40, ALL), (40, ALL - 1), (40, QUARTER[2]), (40, QUARTER[2] - 1)]
    for records, pairs in ((twice, tries), (FIVE, tries_of_five), (discards, tries_of_discards)):
        say("-- list lookup: " + ", ".join("%s/%d %d" % (dotted(a), n, h) for a, n, _, h in records))
        for count, address in pairs:
            say("  %d bytes, lookup of %s: %s" % (count, dotted(address), list_lookup(records, count, address)))


def room():
    ledger = Ledger(33)
    say("-- 33 slots: case J, then no slot is left")
    ledger.run(announce(0, 0, 1), announce(ALL, 32, 2), LOOK, announce(0, 1, 3), announce(ALL - 1, 32, 3), withdraw(ALL - 1, 32))
    ledger.run(announce(QUARTER[3], 2, 4), announce(ALL, 32, 5), LOOK)
    say("-- the same memory: room freed serves another route")
    ledger.run(withdraw(ALL, 32), announce(0, 31, 6), announce(0, 30, 6), announce(QUARTER[1], 2, 7), LOOK)
    ledger.run(withdraw(QUARTER[3], 2), announce(QUARTER[1], 2, 7), announce(QUARTER[2], 2, 8), announce(QUARTER[2], 1, 9), LOOK)
    say("-- 33 slots: 0.0.0.0/0 1, 255.255.255.255/32 2 and its withdrawal, 0.0.0.0/32 3, withdrawal of 0.0.0.0/0, in one list")
    ledger = Ledger(33)
    records = [announce(0, 0, 1), announce(ALL, 32, 2), withdraw(ALL, 32), announce(0, 32, 3), withdraw(0, 0)]
    for what in ("list", "list again"):
        say("  the %s: %s" % (what, ledger.update(records)))
        ledger.look()
    say("-- 32 slots: case J is refused, and leaves no trace")
    ledger = Ledger(32)
    ledger.run(announce(0, 0, 1), announce(ALL, 32, 2), LOOK, withdraw(ALL, 32), announce(0, 31, 3), LOOK)
    ledger.run(announce(QUARTER[2], 1, 4), withdraw(0, 31), announce(QUARTER[2], 31, 4), LOOK)
    say("-- 1 slot: only /0 fits")
    ledger = Ledger(1)
    ledger.run(announce(0, 1, 1), announce(0, 0, 2), announce(0, 1, 3), LOOK, announce(0, 0, 4), withdraw(0, 1), LOOK)
    ledger.run(withdraw(0, 0), withdraw(0, 0), LOOK)
    say("-- 3 slots: a discard is held, needs its slots and hides the shorter route")
    ledger = Ledger(3)
    ledger.run(announce(0, 0, 1), announce(QUARTER[1], 2, 0), LOOK, announce(QUARTER[2], 1, 2), announce(QUARTER[1], 2, 3), LOOK)
    ledger.run(announce(QUARTER[1], 2, 0), withdraw(QUARTER[1], 2), withdraw(QUARTER[1], 2), announce(QUARTER[2], 1, 2), LOOK)


def scattered(seed, *bounds):
    slices = scatter(seed, 6, bounds)
    slices[2][0] = 0
    say("-- 6 slots of pseudo-random words, seed %d" % seed)
    memory(*slices).run(LOOK, announce(0, 0, 254), announce(QUARTER[1], 2, 255), announce(QUARTER[3], 3, 256), LOOK,
                        withdraw(QUARTER[1], 2), withdraw(QUARTER[3], 3), withdraw(0, 0), LOOK)


def four(title, lo, hi, up, hop):
    say("-- 4 slots: " + title)
    memory(lo, hi, up, hop).run(LOOK, announce(QUARTER[2], 2, 11), announce(0, 1, 12), LOOK, announce(0, 2, 13),
                                withdraw(QUARTER[2], 2), announce(0, 2, 14), LOOK)


def rubbish():
    ones = [ALL] * 12
    ledger = memory(ones, ones, ones, ones)
    say("-- 12 slots filled with 4294967295: no ledger")
    ledger.run(announce(0, 0, 1))
    ledger.odd(7)
    ledger.look()
    say("-- the same memory, up[0] set to 13")
    memory(ones, ones, [13] + ones[1:], ones).run(announce(0, 0, 1), LOOK)
    say("-- the same memory, up[0] set to 12: the empty ledger")
    memory(ones, ones, [12] + ones[1:], ones).run(LOOK, announce(QUARTER[2], 11, 1), announce(0, 1, 2), LOOK,
                                                  withdraw(QUARTER[2], 11), announce(0, 1, 2), LOOK)
    scattered(1, ALL, ALL, ALL, ALL)
    for seed in (226, 67137, 1021628, 45680):
        scattered(seed, 6, 6, 13, 300)
    four("slot 1 is its own child, and slot 0 names it on both sides", [1, 1, 0, 0], [1, 0, 0, 0], [0, 3, 0, 0], [0, 21, 0, 0])
    four("slots 1 and 2 are each other's child, and slot 0 names slot 1", [1, 2, 1, 0], [0] * 4, [0, 5, 3, 0], [0, 31, 32, 0])
    four("slot 1 is the child of slot 0, slot 2 of slot 1, and slot 2 names slot 1 and itself",
         [1, 2, 1, 0], [0, 0, 2, 0], [0, 1, 3, 0], [0, 31, 32, 0])
    four("slots 0 and 1 both name slot 2, which carries the mark of slot 0", [1, 2, 0, 0], [2, 0, 0, 0], [0, 1, 2, 0], [0, 41, 42, 0])


def lent(*lengths):
    say("-- lo %d, hi %d, up %d, hop %d elements" % lengths)
    return Ledger(lengths[0], whole=0 if len(set(lengths)) == 1 and 1 <= lengths[0] <= MOST_SLOTS else 1)


def lengths():
    for lengths in [(3, 4, 4, 4), (4, 3, 4, 4), (4, 4, 3, 4), (4, 4, 4, 3)]:
        ledger = lent(*lengths)
        ledger.run(announce(0, 0, 1), LOOK)
    ledger.odd(7)
    lent(4, 4, 4, 4).look()
    lent(0, 0, 0, 0).run(announce(0, 0, 1), LOOK)
    lent(*[MANY_SLOTS] * 4).run(announce(0, 0, 1), LOOK, announce(ALL, 32, 2), withdraw(0, 0), LOOK)


def tell():
    for part in (refusals, one_record, list_lookups, room, rubbish, lengths):
        part()
