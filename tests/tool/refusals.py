"""Every refusal of the library that the tool can reach, as text and as records, at several places."""
from checks import figures, packed, refuses, says
from samples import MOST_SLOTS

GOOD = [(0, 0, 1, 1), (0x0A000000, 8, 1, 2), (0x0A000000, 8, 2, 0)]
GOOD_LINES = ["default via 1", "10.0.0.0/8 via 2", "withdraw 10.0.0.0/8"]
DONE = ["no record was", "1 record was", "2 records were", "3 records were"]

LENGTH = "the prefix length is over 32"
BITS = "an address bit behind the prefix length is set"
ACTION = "the action is neither 1, announce, nor 2, withdraw"
NOT_ANNOUNCED = "the action is not 1, announce, and a list that is looked up has nothing else"
HOP = "the hop is out of range: 0 to 256 to announce, 0 to withdraw"
NOT_HELD = "a prefix is withdrawn that is not held"
PART = "the length of the list is no multiple of 8 bytes, so it ends in a part of a record"

BAD = [  # a line, its record, and the number and the words with which an update refuses it
    ("10.0.0.0/33 via 5", (0x0A000000, 33, 1, 5), 4, LENGTH),
    ("10.0.0.1/255 via 257", (0x0A000001, 255, 1, 257), 4, LENGTH),
    ("10.0.0.1/8 via 5", (0x0A000001, 8, 1, 5), 5, BITS),
    ("128.0.0.0/0 via 257", (0x80000000, 0, 1, 257), 5, BITS),
    ("action 3 10.0.0.0/8 hop 5", (0x0A000000, 8, 3, 5), 6, ACTION),
    ("action 0 10.0.0.0/8 hop 257", (0x0A000000, 8, 0, 257), 6, ACTION),
    ("10.0.0.0/8 via 257", (0x0A000000, 8, 1, 257), 7, HOP),
    ("10.0.0.0/8 via 512", (0x0A000000, 8, 1, 512), 7, HOP),
    ("action 2 10.0.0.0/8 hop 1", (0x0A000000, 8, 2, 1), 7, HOP),
    ("withdraw 11.0.0.0/8", (0x0B000000, 8, 2, 0), 8, NOT_HELD),
]


def updates():
    for text, record, number, words in BAD:
        for place in range(len(GOOD) + 1):
            done = DONE[place] + " applied before it"
            feed = "# a comment\n" + "\n".join(GOOD_LINES[:place] + [text] + GOOD_LINES[place:])
            where = "record %d (counted from 0), line %d of standard input: %s" % (place, place + 2, text)
            refuses(["squeeze"], feed, number, words, where, done)
            refuses(["lookup", "10.0.0.1"], feed, number, words, where, done)
            where = "record %d (counted from 0) of standard input: %s" % (place, text)
            feed = packed(GOOD[:place] + [record] + GOOD[place:])
            refuses(["squeeze", "--to", "records"], feed, number, words, where, done)


def lists():
    """Looked up in the list, where a withdrawal is refused, too."""
    withdrawal = ("withdraw 10.0.0.0/8", (0x0A000000, 8, 2, 0), 6, NOT_ANNOUNCED)
    for text, record, number, words in BAD[:-1] + [withdrawal]:
        if record[2] != 1 and number in (6, 7):
            number, words = 6, NOT_ANNOUNCED
        for place in range(3):
            good = GOOD[:2]
            feed = packed(good[:place] + [record] + good[place:])
            where = "record %d (counted from 0) of standard input: %s" % (place, text)
            done = DONE[place] + " read before it"
            refuses(["lookup", "--table", "10.0.0.1", "11.0.0.1"], feed, number, words, where, done)


def whole_calls():
    good = packed(GOOD)
    for count in (1, 7, 9, 15, 23):
        where = "standard input: %d bytes of records" % count
        refuses(["squeeze", "--records"], good[:count], 3, PART, where, "no record was applied")
        refuses(["lookup", "10.0.0.1", "--records"], good[:count], 3, PART, where, "no record was applied")
        for arguments in (["show", "--records"], ["lookup", "--table", "10.0.0.1", "--records"]):
            refuses(arguments, good[:count], 3, PART, where, "no record was read")
    # 1 comes before 3, and 3 before what is wrong with a record.
    for slots in (0, MOST_SLOTS + 1, 2**24):
        for command in (["squeeze"], ["lookup", "10.0.0.1"]):
            for count in (24, 7):
                words, where = "a ledger cannot have %d slots" % slots, "standard input: %d bytes of records" % count
                arguments = [*command, "--records", "--slots", str(slots)]
                refuses(arguments, good[:count], 1, words, where, "no record was applied")
    where = "standard input: 9 bytes of records"
    refuses(["squeeze"], packed([BAD[0][1]]) + b"\0", 3, PART, where, "no record was applied")


def slots():
    """Document 01's case J: 33 slots are enough, 32 are not."""
    feed, table = "default via 1\n255.255.255.255/32 via 2\n", "0.0.0.0/0 via 1\n255.255.255.255/32 via 2\n"
    says(["squeeze", "--slots", "33"], feed, out=table, err=figures(2, 33, 33, 2))
    says(["squeeze", "--slots=%d" % MOST_SLOTS], feed, out=table, err=figures(2, 33, MOST_SLOTS, 2))
    where = "record 1 (counted from 0), line 2 of standard input: 255.255.255.255/32 via 2"
    for command in (["squeeze"], ["lookup", "10.0.0.1"]):
        refuses([*command, "--slots", "32"], feed, 9, "the routes need more slots than the 32 that are lent", where,
                "1 record was applied before it")
    says(["squeeze", "--slots", "1", "-q"], "default via 1", out="0.0.0.0/0 via 1\n")


def try_all():
    updates()
    lists()
    whole_calls()
    slots()
