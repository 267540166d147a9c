#!/usr/bin/env python3
"""Brings the repository's own definitions, lemmas, fields and constructors to the spelling of today's Rattle: words in snake case.

Run once, at the top, right after the kit's port.py; docs/PORT.md tells of it. A name is changed in the file that declares it, in each
file that takes it by `use` or `ghost use`, behind the name of a module, and, if it is a field of a record, wherever it is cited. Where
a lemma would fall together with a definition it gets `_lem`. Names of Rust functions, exported names, strings and outputs stay. Names
that fall together in one file are printed, and nothing is written."""
import collections, glob, re, sys

# What port.py respelled itself in specs/ and proofs/, of which it changed no edit and no page.
PORTED = """
a-byte add-at add-done add-wide add-words address-below address-is addressOf all-under and-both answerOf as-long as-many as-
written at-first at-last at-place at-top bare-set below-holds below-of below-or bit-at bits-left bitsOf by-shape by-zero byte-at
bytesOf can-write clear-spec cleared-more count-down count-fits count-map count-none countFor counted-step counts-of digit-at
each-append each-map each-more each-none each-of each-on enter-spec enters-none entry-in entryAt entryOf enum-told fieldsAt
fieldsOf fill-spec filled-more filled-none flag-is from-next from-suc from-zero front-length go-on goes-on goes-through good-of
headOf held-none holds-of is-made isBare isEmpty isHeld join-apart keep-spec kept-self kept-then least-first leaves-none left-is
lend-spec let-through linkIn liveIn main-spec mask-at maskOf more-room moved-on mul-at mul-holds mul-wide mul-words never-both
new-none no-digit no-longer no-room none-below none-here none-left none-of none-written not-listed not-none not-there nothing-left
number-fits numberOf one-answer one-found one-less one-more one-set one-table only-one only-self only-so or-digits or-mono or-
right orElse own-room parentOf part-length place-is placeOf pow-multiple prefixOf put-is put-spec puts-none readingOf resultOf
room-for room-in run-spec same-address same-answer same-bit same-bits same-bytes same-false same-length same-or same-outcome same-
self same-some same-spec same-true seen-all seen-more set-front set-full set-there setAt sets-more short-none sideOf sides-apart
size-is slots-lent so-far some-below some-in some-mono some-of some-same split-one stored-same table-fits table-is table-none
table-of tableOf take-within taken-out too-long top-bit top-digit treeOf two-bytes upTo walk-none whole-of without-other word-set
wordOf write-spec writes-again written-all written-at written-from written-none written-out wrote-so zero-more zero-word
""".split()

TOKEN = re.compile(r"[A-Za-z◌][\w'◌-]*")
SIGN = re.compile(r"^(\s*)((?:abbrev |unfoldable |pub )*)([^\s:(){}]+)\s+:(?:\s|$)")
HEAD = re.compile(r"^\s*(?:pub )?(record|data) (\S+)")

def snake(name):
    name = re.sub(r"([a-z0-9])([A-Z])", lambda m: m[1] + "_" + m[2].lower(), name)
    return name.replace("-", "_").lower()

def is_word(name):
    "a name that is no type: types begin with a capital and have no dash"
    return not name[0].isupper() or "-" in name

walks = [f for f in glob.glob("crates/*/proofs/**/Proof.antt", recursive=True)]
antt = [f for f in glob.glob("crates/*/specs/**/*.antt", recursive=True) + glob.glob("crates/*/proofs/**/*.antt", recursive=True) if f not in walks]
source = glob.glob("crates/*/src/**/*.rt", recursive=True)
edits = glob.glob("crates/*/must-fail/*.edit")
pages = glob.glob("docs/*.md") + glob.glob("docs/changes/*.md") + ["README.md"]
read = {f: open(f, encoding="utf-8").read() for f in antt + walks + source + edits + pages}

declared, fields = {}, set()
for f in antt:
    declared[f], record = set(), None
    for line in read[f].split("\n"):
        head, sign = HEAD.match(line), SIGN.match(line)
        if head:
            record = len(line) - len(line.lstrip())
            declared[f].add(head[2])
        elif sign:
            name = sign[3]
            declared[f].add(name)
            if record is not None and len(sign[1]) > record:
                fields.add(name)
            else:
                record = None
every = set().union(*declared.values())

# Old name to new: a camel-case name is a definition and has the plain spelling; a dashed one that falls together with it gets `_lem`.
new, taken = {}, collections.defaultdict(set)
for name in sorted(n for n in every if is_word(n)):
    taken[snake(name)].add(name)
for plain, names in taken.items():
    # port.py has respelled some names already: of two that have no dash, the one in camel case is the definition
    dashed = {n for n in names if "-" in n} or {n for n in names if n == plain and len(names) > 1}
    for n in names:
        new[n] = plain + "_lem" if n in dashed and len(names) > 1 else plain
    if len(names - dashed) > 1 or len(dashed) > 1:
        print("fall together:", plain, names)
new = {a: b for a, b in new.items() if a != b}
ported = {n: snake(n) for n in PORTED if n != snake(n)}
# An operator is declared with rings where its arguments go, and used without.
for name in [n for n in new if "◌" in n]:
    new[name.replace("◌", "")] = new[name].replace("◌", "")
fields = {n for n in fields if n in new}

def module(f):
    "crates/theory/specs/Ledger.antt is Rattle.theory.specs.Ledger"
    return "Rattle." + ".".join(re.sub(r"^crates/|\.antt$", "", f).split("/"))
modules = {module(f): f for f in antt}

def scope(f, text):
    "the names of ours that a file can cite, and the modules that it names by one word"
    names, short = set(declared.get(f, ())), {}
    for mod, items in re.findall(r"\buse (Rattle\.[\w.+]+)\.\{([^}]*)\}", text):
        if mod in modules:
            names |= {n.strip().split(" as ")[0] for n in items.split(",")}
    for mod, word in re.findall(r"\buse (Rattle\.[\w.+]+) as ([\w-]+)", text):
        if mod in modules:
            short[word] = declared[modules[mod]]
    return names, short

def respell(f, text):
    names, short = scope(f, text)
    if f in edits:
        crate = "/".join(f.split("/")[:2])
        files = re.findall(r"^file: (\S+)", text, re.M)
        for g in files:
            if crate + "/" + g in read:
                more, _ = scope(crate + "/" + g, read[crate + "/" + g])
                names |= more
    walk, page = f in walks, f in pages
    names |= {n.replace("◌", "") for n in names}
    change = dict(ported, **new) if page or f in edits else new
    out, at = [], 0
    for m in TOKEN.finditer(text):
        word, before = m[0], text[:m.start()]
        lead = re.search(r"([\w'-]+)\.$", before[-80:])
        if word not in change:
            continue
        if page:
            ok = "-" not in word or re.search(r"[A-Z]\w*\.(?:[\w.-]+(?:, | and |,\n +))*$", before[-400:]) or before.endswith("`")
        elif lead and lead[1] in short:
            ok = word in short[lead[1]]
        elif lead and walk:
            ok = word in fields and lead[1] not in ("c", "before", "w")
        else:
            ok = word in names or word in fields or f in edits and word in ported
        if ok:
            out.append(text[at:m.start()] + change[word])
            at = m.end()
    return "".join(out) + text[at:]

written, clash = {}, False
for f, text in read.items():
    after = respell(f, text)
    if f not in pages and f not in edits:
        old, now = TOKEN.findall(text), TOKEN.findall(after)
        came = collections.defaultdict(set)
        for a, b in zip(old, now):
            came[b].add(a)
        for b, a in came.items():
            if len(a) > 1:
                print("%s: %s are all %s now" % (f, ", ".join(sorted(a)), b))
                clash = True
    if after != text:
        written[f] = after
if "--look" in sys.argv or (clash and "--write" not in sys.argv):
    sys.exit("nothing is written")
for f, text in written.items():
    open(f, "w", encoding="utf-8").write(text)
print("%d names, %d files" % (len(new), len(written)))
