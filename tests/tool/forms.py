"""Text and records: what lines say, odd text, odd bytes, and the way there and back."""
from checks import figures, lines, packed, refuses, run, same, says, wrong
from plain import next_word
from samples import SLOTS

A_LINE = ("`10.0.0.0/8 via 5`, `10.0.0.0/8 discard`, `withdraw 10.0.0.0/8`, "
          "or `action 3 10.0.0.0/8 hop 5` for other records")
A_PREFIX = "a prefix as 10.0.0.0/8, or `default` for 0.0.0.0/0"
A_BYTE = "a number from 0 to 255 for a prefix length or an action"
A_HOP = "a number from 0 to 65535 for a hop"
TEN = 0x0A000000

SAID = [  # a line, and the record that it says
    ("10.0.0.0/8 via 5", (TEN, 8, 1, 5)),
    ("withdraw 10.0.0.0/8", (TEN, 8, 2, 0)),
    ("10.0.0.0/8 discard", (TEN, 8, 1, 0)),
    ("10.0.0.0/8 via 0", (TEN, 8, 1, 0)),
    ("default via 1", (0, 0, 1, 1)),
    ("default discard", (0, 0, 1, 0)),
    ("withdraw default", (0, 0, 2, 0)),
    ("\t 10.0.0.0/8\tvia   5 \t", (TEN, 8, 1, 5)),
    ("10.0.0.0/8 via 5# no space", (TEN, 8, 1, 5)),
    ("10.0.0.0/08 via 05", (TEN, 8, 1, 5)),
    ("action 1 10.0.0.0/8 hop 5", (TEN, 8, 1, 5)),
    ("action 2 default hop 0", (0, 0, 2, 0)),
    # Rules are the library's matter: what has room in a record is packed as it stands.
    ("10.0.0.1/8 via 5", (TEN + 1, 8, 1, 5)),
    ("10.0.0.0/33 via 257", (TEN, 33, 1, 257)),
    ("255.255.255.255/255 via 65535", (2**32 - 1, 255, 1, 65535)),
    ("10.0.0.1/33 discard", (TEN + 1, 33, 1, 0)),
    ("action 0 0.0.0.0/0 hop 0", (0, 0, 0, 0)),
    ("action 255 10.0.0.0/8 hop 65535", (TEN, 8, 255, 65535)),
    ("action 2 10.0.0.0/8 hop 7", (TEN, 8, 2, 7)),
]
UNREADABLE = [  # a line, and what is expected instead
    ("10.0.0.0/8", A_LINE), ("via 5", A_LINE), ("10.0.0.0/8 via 5 6", A_LINE), ("10.0.0.0/8 5", A_LINE),
    ("withdraw", A_LINE), ("withdraw 10.0.0.0/8 via 5", A_LINE), ("announce 10.0.0.0/8 via 5", A_LINE),
    ("action 3 10.0.0.0/8 via 5", A_LINE), ("10.0.0.0/8 VIA 5", A_LINE), (",", A_LINE),
    ("discard", A_LINE), ("discard 10.0.0.0/8", A_LINE), ("10.0.0.0/8 discard 0", A_LINE),
    ("withdraw 10.0.0.0/8 discard", A_LINE),
    ("10.0.0.0 via 5", A_PREFIX), ("10.0.0/8 via 5", A_PREFIX), ("10.0.0.256/8 via 5", A_PREFIX),
    ("Default via 5", A_PREFIX), ("10.0.0.-1/8 via 5", A_PREFIX), ("010.0.0.0/8 via 5", A_PREFIX),
    ("::/0 via 5", A_PREFIX), ("withdraw 10", A_PREFIX), ("10 discard", A_PREFIX), ("withdraw discard", A_PREFIX),
    ("10.0.0.0/256 via 5", A_BYTE), ("10.0.0.0/ via 5", A_BYTE), ("10.0.0.0/-1 via 5", A_BYTE),
    ("10.0.0.0/8/9 via 5", A_BYTE), ("10.0.0.0/+8 via 5", A_BYTE), ("action 256 10.0.0.0/8 hop 5", A_BYTE),
    ("action x 10.0.0.0/8 hop 5", A_BYTE),
    ("10.0.0.0/8 via 65536", A_HOP), ("10.0.0.0/8 via five", A_HOP), ("10.0.0.0/8 via +5", A_HOP),
    ("10.0.0.0/8 via -5", A_HOP), ("10.0.0.0/8 via 5.0", A_HOP), ("10.0.0.0/8 via discard", A_HOP),
    ("action 3 10.0.0.0/8 hop 99999999999999999999", A_HOP),
]


def what_lines_say():
    for text, record in SAID:
        for end in ("", "\n", "\r\n"):
            says(["pack"], text + end, out=packed([record]), title=repr(text + end))
    text = "# a comment\n\n \t \n" + "\n".join(text for text, _ in SAID) + "\n#\n"
    everything = packed(record for _, record in SAID)
    for feed in (text, text.replace("\n", "\r\n"), "\ufeff" + text, text.rstrip("#\n")):
        says(["pack"], feed, out=everything, title="all lines:")
    says(["pack"], b"default via 1 # caf\xe9\n", out=packed([(0, 0, 1, 1)]), title="a comment that is not UTF-8:")


def cannot_be_read(number, text, expected):
    return "line %d of standard input cannot be read: %s\n  expected %s" % (number, text, expected)


def unreadable():
    for text, expected in UNREADABLE:
        for command in ("pack", "squeeze"):
            feed = "default via 1\n\n%s\n# end\n" % text
            wrong([command], feed, cannot_be_read(3, text, expected), title=repr(text))
    wrong(["pack"], b"caf\xe9", cannot_be_read(1, "caf\ufffd", A_LINE))
    wrong(["pack", "--text"], b"\x1b[2J\0", cannot_be_read(1, "\ufffd[2J\ufffd", A_LINE))
    wrong(["pack"], "x" * 5000, cannot_be_read(1, "x" * 100 + " ...", A_LINE))
    wrong(["pack"], "x" * 100, cannot_be_read(1, "x" * 100, A_LINE))


def there_and_back():
    word, bytes_ = 2463534242, bytearray()
    for _ in range(1000):
        word = next_word(word)
        bytes_ += word.to_bytes(4, "big")
    anything = [(TEN, 8, action, hop) for action in range(256) for hop in (0, 1, 64, 256, 257, 65535)]
    for title, records in (("random records:", bytes(bytes_)), ("every action:", packed(anything)),
                           ("good records:", packed(record for _, record in SAID))):
        listed = [(int.from_bytes(records[k:k + 4], "big"), records[k + 4], records[k + 5],
                   int.from_bytes(records[k + 6:k + 8], "big")) for k in range(0, len(records), 8)]
        says(["show"], records, out=lines(listed), title=title)
        shown, _, _ = run(["show"], records)
        says(["pack"], shown, out=records, title=title)


def which_form():
    record, text = packed([(0, 0, 1, 1)]), "0.0.0.0/0 via 1\n"
    wrong(["pack"], record, "standard input: looks like records; --text reads it as text all the same")
    wrong(["show"], text, "standard input: looks like text; --records reads it as records all the same")
    says(["show", "--records"], b"ABCDEFGH", out="action 70 65.66.67.68/69 hop 18248\n")
    says(["squeeze", "-q", "--text"], text, out=text)
    says(["squeeze", "-q", "--records"], record, out=text)
    says(["squeeze", "-q", "--text", "--records"], record, out=text, title="the last counts:")
    refuses(["squeeze", "--records"], "ABCDEFGH", 4, "the prefix length is over 32",
            "record 0 (counted from 0) of standard input: action 70 65.66.67.68/69 hop 18248",
            "no record was applied before it")
    wrong(["squeeze", "--text"], record, cannot_be_read(1, "\ufffd" * 8, A_LINE))
    # The one byte that tells them apart is enough, wherever it stands.
    for byte in range(32):
        control = bytes([byte]) not in b"\t\n\r"
        out, _, status = run(["show"], b"ABCDEFG" + bytes([byte]))
        came = {"status": status, "shown": out != b""}
        same("show of a feed with byte %d" % byte, {"status": 0 if control else 2, "shown": control}, came)


def empty():
    for feed in ("", "\n", "# nothing\n"):
        says(["pack"], feed, title=repr(feed))
        says(["squeeze"], feed, err=figures(0, 1, SLOTS, 0), title=repr(feed))
        says(["squeeze", "-q", "--to", "records"], feed, title=repr(feed))
        says(["lookup", "10.0.0.1"], feed, out="10.0.0.1 is discarded\n")
        says(["lookup", "--table", "10.0.0.1"], feed, out="10.0.0.1 is discarded\n")
    for arguments in (["show"], ["show", "--records"], ["pack", "--text"]):
        says(arguments)
    for hop in (64, 256):
        says(["squeeze"], "default via %d" % hop, out="0.0.0.0/0 via %d\n" % hop, err=figures(1, 1, SLOTS, 1))


def try_all():
    what_lines_say()
    unreadable()
    there_and_back()
    which_form()
    empty()
