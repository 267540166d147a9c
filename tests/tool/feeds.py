"""Long feeds: 20,000 lines, and feeds that need more slots than the tool lends at first, or than there can be."""
from checks import figures, lines, packed, refuses, says
from plain import bits, dotted, needs, next_word
from samples import MOST_SLOTS, SLOTS, answers, table_of

LINES = 20000
TEN = 0x0A000000
DRAWN = (None, 0, 1, 64, 65, 128, 129, 192, 193, 256)  # a withdrawal, discard, and the ends of each word of a set


def words(seed):
    while True:
        seed = next_word(seed)
        yield seed


def busy(default):
    """Announcements, some to discard, and withdrawals of prefixes of 12 to 22 bits below 10.0.0.0/8, so close that many
    meet again; behind a default route or without one."""
    records, routes, draw = [], {}, words(2463534242)
    if default:
        records, routes = [(0, 0, 1, 1)], {"": 1}
    while len(records) < LINES:
        length = 12 + next(draw) % 11
        address = TEN | (next(draw) & 0xFFFFFF) >> 32 - length << 32 - length
        prefix, hop = bits(address, length), DRAWN[next(draw) % len(DRAWN)]
        if hop is not None:
            routes[prefix] = hop
            records.append((address, length, 1, hop))
        elif prefix in routes:
            del routes[prefix]
            records.append((address, length, 2, 0))
    return records, routes


def taken(default):
    records, routes = busy(default)
    table, slots = table_of(routes), SLOTS
    while slots < most_used(records):
        slots *= 2
    told = figures(len(routes), needs(routes), slots, len(table))
    says(["squeeze"], lines(records), out=lines(table), err=told, title="20,000 lines:")
    says(["squeeze", "--to", "records"], packed(records), out=packed(table), err=told, title="20,000 records:")
    says(["pack"], lines(records), out=packed(records), title="20,000 lines:")
    says(["show"], packed(records), out=lines(records), title="20,000 records:")
    addresses = [next(draw) & 0xFFFFFF | TEN for draw in [words(88172645)] for _ in range(500)]
    told, looked = answers(routes, addresses), [dotted(at) for at in addresses]
    says(["lookup", *looked], lines(records), out=told, title="20,000 lines:")
    says(["lookup", "--table", *looked], packed(table), out=told, title="in their table:")


def most_used(records):
    """The most slots that the ledger needs after any of the records; `below` counts the held prefixes that begin so."""
    below, held, most, inner = {}, set(), 1, 1
    for address, length, action, _ in records:
        prefix = bits(address, length)
        if (prefix in held) == (action == 1):
            continue
        step = 1 if action == 1 else -1
        held ^= {prefix}
        for k in range(1, length + 1):
            count = below.get(prefix[:k], 0) + step
            inner += (count == 1 and step == 1) - (count == 0)
            below[prefix[:k]] = count
        most = max(most, inner)
    return most


def too_many():
    """Routes to 256 hops that use each of the 1,048,576 slots there can be, and one that needs the 1,048,577th."""
    # All 2**17 - 1 strings of at most 16 bits and, behind each of the 2**16 longest, 14 more: one slot is left. Each /30
    # is alone in its /28, which so keeps the default's hop: the smallest table is the routes, in the feed's order.
    far_apart = [(top << 16, 30, 1, 2 + top % 255) for top in range(2**16)]
    full = [(0, 0, 1, 1), *far_apart, (0xFFFF0000, 31, 1, 3)]
    held = len(full)
    says(["squeeze"], lines(full), out=lines(full), err=figures(held, MOST_SLOTS, MOST_SLOTS, held), title="all slots:")
    records = [*full, (0xFFFF0002, 31, 1, 3), (0, 0, 1, 3)]
    short, bad = "the routes need more slots than the %d that are lent" % MOST_SLOTS, "255.255.0.2/31 via 3"
    done = "%d records were applied before it" % held
    refuses(["squeeze"], packed(records), 9, short,
            "record %d (counted from 0) of standard input: %s" % (held, bad), done)
    refuses(["squeeze"], lines(records), 9, short,
            "record %d (counted from 0), line %d of standard input: %s" % (held, held + 1, bad), done)


def try_all():
    for default in (True, False):
        taken(default)
    too_many()
