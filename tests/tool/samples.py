"""The samples, against expected/ and against the plain programs of document 01."""
from checks import answer, figures, file, lines, packed, refuses, run, same, says
from plain import ALL, Ledger, dotted, longest, needs
from smallest import smallest

SLOTS = 4096  # what the tool lends at first
MOST_SLOTS = 1048576  # what a ledger may have


def records_of(sample):
    """The sample's records, read by a few lines of our own."""
    records = []
    for words in (text.split("#")[0].split() for text in file("samples", sample).decode().splitlines()):
        if words:
            withdrawn = words[0] == "withdraw"
            address, length = words[withdrawn].replace("default", "0.0.0.0/0").split("/")
            number = int.from_bytes(bytes(map(int, address.split("."))), "big")
            hop = 0 if withdrawn or words[1] == "discard" else int(words[2])
            records.append((number, int(length), 2 if withdrawn else 1, hop))
    return records


def table_of(routes):
    return [(int(prefix.ljust(32, "0"), 2), len(prefix), 1, hop) for prefix, hop in smallest(routes)]


def answers(routes, addresses):
    """What the tool has to tell of these addresses, with these routes held."""
    return "".join(answer(address, int(longest(routes, address).split()[1])) for address in addresses)


def whole(sample):
    """A sample that is taken: as text and as records, to text and to records, and looked up at every edge."""
    records, path = records_of(sample), "samples/" + sample
    ledger, peak = Ledger(SLOTS), 1
    for record in records:
        assert ledger.one(record) == 0, record
        peak = max(peak, needs(ledger.routes))
    table = table_of(ledger.routes)
    expected = file("tests", "tool", "expected", sample)
    same("expected/%s and the plain program" % sample, {"table": expected}, {"table": lines(table).encode()})

    told = figures(len(ledger.routes), needs(ledger.routes), SLOTS, len(table))
    says(["squeeze", path], out=expected, err=told)
    says(["squeeze", "-"], file("samples", sample), out=expected, err=told)
    says(["squeeze"], packed(records), out=expected, err=told)
    says(["squeeze", "--quiet", path], out=expected)
    says(["squeeze", "-q", "--to", "records"], packed(records), out=packed(table))
    says(["squeeze", "-q"], packed(table), out=expected, title="squeezed again:")
    says(["squeeze", "-q", "--slots", str(peak), path], out=expected)
    says(["pack", path], out=packed(records))
    says(["show"], packed(records), out=lines(records))

    edges = sorted({edge & ALL for address, length, _, _ in records
                    for start in (address, address + (1 << (32 - length))) for edge in (start - 1, start)})
    addresses, told = [dotted(edge) for edge in edges], answers(ledger.routes, edges)
    says(["lookup", *addresses, path], out=told)
    says(["lookup", "--table", *addresses], expected, out=told, title="in the table:")


def try_all():
    for sample in ("case-c.txt", "branch-office.txt", "no-default.txt"):
        whole(sample)
    c = bytes.fromhex("00 00 00 00 00 01 00 02  40 00 00 00 02 01 00 01  C0 00 00 00 02 01 00 03")
    says(["squeeze", "-q", "--to", "records", "samples/case-c.txt"], out=c, title="document 01's bytes:")

    path = "samples/stops-in-the-middle.txt"
    words, done = "an address bit behind the prefix length is set", "4 records were applied before it"
    for arguments in (["squeeze"], ["lookup", "10.10.0.1"]):
        refuses([*arguments, path], b"", 5, words,
                "record 4 (counted from 0), line 7 of %s: 10.20.1.0/16 via 4" % path, done)
    stopping, _, _ = run(["pack", path])
    same("pack of " + path, {"records": packed(records_of("stops-in-the-middle.txt"))}, {"records": stopping})
    refuses(["squeeze"], stopping, 5, words, "record 4 (counted from 0) of standard input: 10.20.1.0/16 via 4", done)
