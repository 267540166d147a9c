"""The command line: help, options, files, pipes and what cannot be used."""
import os, pty, re, tempfile
from checks import figures, file, packed, run, same, says, wrong
from samples import SLOTS

OPTIONS = {
    "pack": {"--text", "--output", "--help"},
    "show": {"--records", "--output", "--help"},
    "squeeze": {"--text", "--records", "--to", "--slots", "--quiet", "--output", "--help"},
    "lookup": {"--text", "--records", "--table", "--slots", "--output", "--help"},
}
HINT = "\n  `arvandish --help` says what can be asked"
C = "samples/case-c.txt"
TABLE = file("tests", "tool", "expected", "case-c.txt")


def help_texts():
    for arguments in (["--help"], ["-h"]):
        out, err, status = run(arguments)
        named = set(re.findall(r"^  (\w+) .*\[FILE\]", out.decode(), re.M))
        came = {"commands": named, "standard error": err, "status": status}
        same("arvandish " + arguments[0], {"commands": set(OPTIONS), "standard error": b"", "status": 0}, came)
    for command, options in OPTIONS.items():
        for ask in ("--help", "-h"):
            out, err, status = run([command, ask])
            named = set(re.findall(r"^  (?:-\w, )?(--\w+)", out.decode(), re.M))
            came = {"start": out.split(b" [")[0].decode(), "options": named, "standard error": err, "status": status}
            expected = {"start": "arvandish " + command, "options": options, "standard error": b"", "status": 0}
            same("arvandish %s %s" % (command, ask), expected, came)
        for option in set.union(*OPTIONS.values()) - options:
            wrong([command, option], "", "%s has no option %s%s" % (command, option, HINT))
    version = re.search(r'^version = "(.*)"$', file("Cargo.toml").decode(), re.M)[1]
    for ask in ("--version", "-V"):
        says([ask], out="arvandish %s\n" % version)


def usage():
    for arguments, words in (
            ([], "which command?"),
            (["sqeeze"], "there is no command sqeeze"),
            (["--slots", "4"], "there is no command --slots"),
            (["squeeze", "--bogus"], "squeeze has no option --bogus"),
            (["squeeze", "-x"], "squeeze has no option -x"),
            (["squeeze", "--quiet=1"], "--quiet takes no value"),
            (["squeeze", "--slots"], "--slots wants N behind it"),
            (["squeeze", "--to"], "--to wants FORM behind it"),
            (["squeeze", "-o"], "-o wants FILE behind it"),
            (["squeeze", "--to", "json"], "--to wants `text` or `records`, not json"),
            (["squeeze", "--slots", "many"], "--slots wants a number from 0 to 16777216, not many"),
            (["squeeze", "--slots", "-1"], "--slots wants a number from 0 to 16777216, not -1"),
            (["squeeze", "--slots", "16777217"], "--slots wants a number from 0 to 16777216, not 16777217"),
            (["squeeze", C, C], "one feed at a time: %s is too many" % C),
            (["lookup"], "lookup wants an address as 10.1.2.3"),
            (["lookup", C], "lookup wants an address as 10.1.2.3"),
            (["lookup", "10.1.2", "10.1.2.3", C], "10.1.2 is no address as 10.1.2.3"),
            (["lookup", "10.1.2.3", C, C], "%s is no address as 10.1.2.3" % C),
            (["lookup", "--table", "--slots", "4", "10.1.2.3", C],
             "--slots does not go with --table: a list that is looked up has no slots")):
        wrong(arguments, "", words + HINT)


def lookups():
    says(["lookup", "10.1.2.3", C], out="10.1.2.3 via 2\n")
    says(["lookup", "10.1.2.3"], file(C), out="10.1.2.3 via 2\n")
    says(["lookup", "10.1.2.3", "-"], file(C), out="10.1.2.3 via 2\n")
    says(["lookup", "10.1.2.3", "--", C], out="10.1.2.3 via 2\n")
    answers = "255.255.255.255 via 3\n0.0.0.0 via 2\n64.0.0.0 via 1\n0.0.0.0 via 2\n"
    for table in ([], ["--table"]):
        says(["lookup", "255.255.255.255", "0.0.0.0", "64.0.0.0", "0.0.0.0", C, *table], out=answers)
        feed = "10.0.0.0/8 via 5\n10.0.0.0/8 via 6\n10.1.0.0/16 via 256\n"
        says(["lookup", *table, "10.2.0.0", "10.1.0.0", "11.0.0.0"], feed,
             out="10.2.0.0 via 6\n10.1.0.0 via 256\n11.0.0.0 is discarded\n")
    withdrawn = "10.0.0.0/8 via 5\n10.1.0.0/16 via 7\nwithdraw 10.0.0.0/8\n"
    says(["lookup", "10.2.0.0", "10.1.0.0"], withdrawn, out="10.2.0.0 is discarded\n10.1.0.0 via 7\n")


def files():
    with tempfile.TemporaryDirectory() as folder:
        path = os.path.join(folder, "a table")
        told = figures(4, 6, SLOTS, 3)
        says(["squeeze", "-o", path, C], err=told)
        same("-o", {"file": TABLE}, {"file": file(path)})
        for feed, expected in (("10.0.0.0/8 via 257", 1), ("10.0.0.0/8", 2)):
            _, _, status = run(["squeeze", "--output=" + path], feed)
            same("-o and no table", {"status": expected, "file": TABLE}, {"status": status, "file": file(path)})
        says(["squeeze", "-q", "-o", path], "")
        same("-o and an empty table", {"file": b""}, {"file": file(path)})
        says(["pack", "-o", path, C])
        says(["squeeze", "-q", path], out=TABLE)
        says(["squeeze", "-q", path, "-o", path])
        same("a feed over itself", {"file": TABLE}, {"file": file(path)})
        says(["show", "--records", "-o", path], packed([(0, 0, 1, 9)]))
        says(["lookup", "1.2.3.4", "-o", path + "2", path])
        same("lookup -o", {"file": b"1.2.3.4 via 9\n"}, {"file": file(path + "2")})
        missing = os.path.join(folder, "missing")
        wrong(["squeeze", missing], "", missing + ": No such file or directory (os error 2)")
        wrong(["squeeze", folder], "", folder + ": Is a directory (os error 21)")
        wrong(["squeeze", "-o", folder, C], "", folder + ": Is a directory (os error 21)")
        dashes = os.path.join(folder, "-dash")
        os.rename(path, dashes)
        says(["squeeze", "-q", "--", "-dash"], out="0.0.0.0/0 via 9\n", cwd=folder)


def pipes():
    reader, writer = os.pipe()
    os.close(reader)
    says(["squeeze", C], err=figures(4, 6, SLOTS, 3), stdout=writer, title="a reader that has gone:")
    os.close(writer)
    with open("/dev/full", "wb") as full:
        wrong(["squeeze", C], "", "standard output: No space left on device (os error 28)", stdout=full)
        says(["squeeze", C], out=TABLE, stderr=full, title="no room for the figures:")
        says(["squeeze"], "10.0.0.0/8 via 257", status=1, stderr=full, title="no room for the refusal:")
    ours, theirs = pty.openpty()
    no_text = "records are no text for a terminal: name a file with -o, or use a pipe" + HINT
    for arguments in (["pack", C], ["squeeze", "--to", "records", C]):
        wrong(arguments, "", no_text, stdout=theirs, title="a terminal:")
    says(["squeeze", "-q", C], stdout=theirs, title="a terminal:")
    same("text on a terminal", {"text": TABLE.replace(b"\n", b"\r\n")}, {"text": os.read(ours, 4096)})
    os.close(theirs)
    os.close(ours)


def try_all():
    help_texts()
    usage()
    lookups()
    files()
    pipes()
