"""Runs the tool and compares all that it says: standard output, standard error and exit status, each to the byte."""
import os, struct, subprocess, sys

ROOT = os.path.dirname(os.path.dirname(os.path.dirname(os.path.abspath(__file__))))
TOOL = os.path.join(ROOT, "target", "host", "release", "arvandish")
SHOWN = 600  # bytes of what differs, for a report that can be read
sys.path.insert(0, os.path.join(ROOT, "tests", "oracles"))
from plain import dotted

checks = failed = 0


def build():
    command = "cargo build --offline --release --quiet --package arvandish"
    subprocess.run(command.split(), cwd=ROOT, check=True)


def encoded(text):
    return text if isinstance(text, bytes) else text.encode()


def run(arguments, feed=b"", **how):
    """Standard output, standard error and exit status."""
    how = {"stdout": subprocess.PIPE, "stderr": subprocess.PIPE, "cwd": ROOT, **how}
    done = subprocess.run([TOOL, *arguments], input=encoded(feed), **how)
    return done.stdout, done.stderr, done.returncode


def same(title, expected, came):
    """One check: each named thing is as expected."""
    global checks, failed
    checks += 1
    differ = [name for name in expected if expected[name] != came[name]]
    failed += bool(differ)
    for name in differ:
        print("failed: %s: %s" % (title, name))
        print("  expected %s\n  came     %s" % (repr(expected[name])[:SHOWN], repr(came[name])[:SHOWN]))


def says(arguments, feed=b"", out=b"", err=b"", status=0, title="", **how):
    """One check: the tool, run with these arguments and this standard input, says exactly this."""
    came_out, came_err, came_status = run(arguments, feed, **how)
    expected = {"standard output": encoded(out), "standard error": encoded(err), "exit status": status}
    came = {"standard output": came_out or b"", "standard error": came_err or b"", "exit status": came_status}
    same("%s arvandish %s" % (title, " ".join(arguments)), expected, came)


def refuses(arguments, feed, number, words, where, done, **how):
    """One check: the library's refusal is told like this, with exit status 1 and nothing on standard output."""
    err = "arvandish: refusal %d: %s\n  %s\n  %s; nothing was written\n" % (number, words, where, done)
    says(arguments, feed, err=err, status=1, **how)


def wrong(arguments, feed, words, **how):
    """One check: the tool itself cannot use this, with exit status 2 and nothing on standard output."""
    says(arguments, feed, err="arvandish: %s\n" % words, status=2, **how)


def file(*path):
    with open(os.path.join(ROOT, *path), "rb") as read:
        return read.read()


# Records are (address, length, action, hop), as in tests/oracles/plain.py.

def packed(records):
    return b"".join(struct.pack(">IBBH", *record) for record in records)


def line(record):
    """How the tool writes a record."""
    address, length, action, hop = record
    at = "%s/%d" % (dotted(address), length)
    if (action, hop) == (1, 0):
        return "%s discard\n" % at
    if action == 1:
        return "%s via %d\n" % (at, hop)
    if (action, hop) == (2, 0):
        return "withdraw %s\n" % at
    return "action %d %s hop %d\n" % (action, at, hop)


def lines(records):
    return "".join(map(line, records))


def answer(address, hop):
    """How the tool tells the hop of an address."""
    return "%s via %d\n" % (dotted(address), hop) if hop else "%s is discarded\n" % dotted(address)


def figures(held, used, slots, written):
    ratio = "%.1f %%" % (100 * written / held) if held else "none"
    return "held routes      %d\nslots used       %d of %d\nwritten records  %d\nratio            %s\n" % (
        held, used, slots, written, ratio)
