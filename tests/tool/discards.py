"""Feeds without a default route, and routes to discard. The tables are worked out by hand: an address that no route
covers has hop 0, and hop 0 is in force above the empty string."""
from checks import figures, refuses, run, says
from samples import SLOTS

GAP = "0.0.0.0/2 via 1\n64.0.0.0/3 via 1\n128.0.0.0/1 via 1\n"  # 00* 1, 010* 1, 1* 1
GAP_TABLE = "0.0.0.0/0 via 1\n96.0.0.0/3 discard\n"
HIDING = "default via 1\n10.0.0.0/8 discard\n10.1.0.0/16 via 2\n"

TABLES = [  # a feed, how many routes it leaves held, how many slots they use, and the smallest table
    ("10.0.0.0/8 via 5", 1, 9, "10.0.0.0/8 via 5\n"),
    ("10.0.0.0/8 via 5\nwithdraw 10.0.0.0/8", 0, 1, ""),
    ("default via 1\nwithdraw default", 0, 1, ""),
    ("0.0.0.0/1 via 1\n128.0.0.0/1 via 1\n10.0.0.0/8 via 5", 3, 10, "0.0.0.0/0 via 1\n10.0.0.0/8 via 5\n"),
    # An entry to discard where nothing is held, and the same table where that discard is announced.
    (GAP, 3, 6, GAP_TABLE),
    (GAP + "96.0.0.0/3 discard", 4, 7, GAP_TABLE),
    # What is discarded anyway needs no entry.
    ("default discard", 1, 1, ""),
    ("10.0.0.0/8 via 5\n10.0.0.0/8 discard", 1, 9, ""),
    ("default discard\n10.0.0.0/8 via 5", 2, 9, "10.0.0.0/8 via 5\n"),
    ("0.0.0.0/1 via 256\n128.0.0.0/1 discard", 2, 3, "0.0.0.0/1 via 256\n"),
    (HIDING, 3, 17, "0.0.0.0/0 via 1\n10.0.0.0/8 discard\n10.1.0.0/16 via 2\n"),
    (HIDING + "withdraw 10.0.0.0/8", 2, 17, "0.0.0.0/0 via 1\n10.1.0.0/16 via 2\n"),
    # The empty string's set is 0, 1, 2: although a default route is held, it gets no entry.
    ("default via 1\n128.0.0.0/2 discard\n192.0.0.0/2 via 2", 3, 4, "0.0.0.0/1 via 1\n192.0.0.0/2 via 2\n"),
    # The set of 11* is 0 and 2, and 1 is in force above it.
    ("default via 1\n192.0.0.0/3 discard\n224.0.0.0/3 via 2", 3, 5,
     "0.0.0.0/0 via 1\n192.0.0.0/2 discard\n224.0.0.0/3 via 2\n"),
]


def tables():
    for feed, held, used, table in TABLES:
        records, _, _ = run(["pack"], table)
        told = figures(held, used, SLOTS, table.count("\n"))
        for said in sorted({feed, feed.replace("discard", "via 0")}):
            says(["squeeze"], said, out=table, err=told, title=repr(said))
            says(["squeeze", "-q", "--to", "records"], said, out=records, title=repr(said))
        # The table is read back, as text and as records.
        for form in (table, records):
            says(["squeeze", "-q"], form, out=table, title=repr(form))
            says(["squeeze", "-q", "--to", "records"], form, out=records, title=repr(form))
        says(["show"], records, out=table, title=repr(table))
    says(["squeeze", "-q", "--to", "records"], GAP,
         out=bytes.fromhex("00 00 00 00 00 01 00 01  60 00 00 00 03 01 00 00"), title="the bytes of a discard:")


def lookups():
    around_gap = "95.255.255.255 via 1\n96.0.0.0 is discarded\n127.255.255.255 is discarded\n128.0.0.0 via 1\n"
    for feed, told in (
            (GAP, around_gap),
            (GAP_TABLE, around_gap),
            (HIDING, "9.0.0.0 via 1\n10.0.0.0 is discarded\n10.1.0.0 via 2\n10.2.0.0 is discarded\n11.0.0.0 via 1\n"),
            ("10.0.0.0/8 via 5\n10.0.0.0/8 discard", "10.0.0.0 is discarded\n"),
            ("10.0.0.0/8 discard\n10.0.0.0/8 via 5", "10.0.0.0 via 5\n")):
        addresses = [line.split()[0] for line in told.splitlines()]
        for table in ([], ["--table"]):
            says(["lookup", *table, *addresses], feed, out=told, title=repr(feed))
    says(["lookup", "10.0.0.0", "10.1.0.0"], HIDING + "withdraw 10.0.0.0/8", out="10.0.0.0 via 1\n10.1.0.0 via 2\n")


def held_like_others():
    """A route to discard needs its slots, and can be withdrawn once."""
    feed = "10.0.0.0/8 discard\n"
    says(["squeeze", "--slots", "9"], feed, err=figures(1, 9, 9, 0))
    refuses(["squeeze", "--slots", "8"], feed, 9, "the routes need more slots than the 8 that are lent",
            "record 0 (counted from 0), line 1 of standard input: 10.0.0.0/8 discard",
            "no record was applied before it")
    refuses(["squeeze"], feed + "withdraw 10.0.0.0/8\n" * 2, 8, "a prefix is withdrawn that is not held",
            "record 2 (counted from 0), line 3 of standard input: withdraw 10.0.0.0/8",
            "2 records were applied before it")


def try_all():
    tables()
    lookups()
    held_like_others()
