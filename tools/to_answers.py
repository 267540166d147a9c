#!/usr/bin/env python3
"""Turns the proof files of the older Rattle (proofs/F/Proof.antt, a term for each need in order) into Invariants.antt and Answers.antt.

    cd crates/NAME; rt check --generated FOLDER --old-names; python3 ../../tools/to_answers.py FOLDER/names.json [FUNCTION ..]

An answer that was only `search rules` goes, as the check tries that by itself. The paths into the known facts become flat. What is left to
mend, the check says. Written for the port (docs/PORT.md)."""
import json, os, re, sys

plain = lambda s: s.replace("-", "_")
NAME = r"[A-Za-z_][\w'₀-₉-]*"

def blocks(text):
    "the head (comments and imports) and then each definition with the lines above its signature"
    lines = text.split("\n")
    head, out, now = [], [], []
    i = 0
    while i < len(lines) and (lines[i].startswith("--") or lines[i].startswith("use ") or not lines[i].strip()):
        head.append(lines[i]); i += 1
    for line in lines[i:]:
        if not line.strip():
            if now: out.append(now); now = []
        else:
            now.append(line)
    if now: out.append(now)
    return head, out

def turn(folder, old, crate, function):
    text = open(folder + "/Proof.antt", encoding="utf-8").read()
    head, defs = blocks(text)
    needs = {plain(a): b for a, b in old["needs"]}
    steps = {}
    for place, parent, (a, b), call, _ in old["places"]:
        if a: steps[plain(a)] = b
    loops = {plain(a): (b, vs) for (a, b), vs in [(l[0], l[1]) for l in old["loops"]]}
    said, invariants, answers = [], [], []
    args = dict(old.get("args", []))

    def flat(body):
        # names given to a place on the way: they are all `c` now, and one that a lemma takes whole keeps its line
        alias, chain = {}, {"c": 0}
        for m in re.finditer(r"let (%s) = (c|%s)((?:\.before)*) in ?" % (NAME, NAME), body):
            if m[2] in chain:
                chain[m[1]] = chain[m[2]] + m[3].count(".before")
                alias[m[1]] = "c"
        for a in alias:
            line = r"[ \t]*let %s = %s(?:\.before)* in ?\(?\n?" % (re.escape(a), NAME)
            rest = re.sub(r"let %s = " % NAME + NAME + r"(?:\.before)* in", "", body)
            whole = re.search(r"(?<![\w.'-])%s(?!(?:\.before)*\.(?!before)|[\w'-])" % re.escape(a), rest)
            if whole:
                body = re.sub(r"let %s = %s(?:\.before)* in" % (re.escape(a), NAME), "let %s = c%s in" % (a, ".before" * chain[a]), body)
            else:
                body = re.sub(line, lambda m: "" if "(" not in m[0] else "(\n", body)
        roots = "|".join(["c"] + sorted(map(re.escape, alias), key=len, reverse=True))
        def path(m):
            step = m[2]
            if step in ("args", "requires", "ranges", "well_formed", "lifetimes", "type_inv"):
                return "c." + step
            if plain(step) in steps:
                return "c." + steps[plain(step)]
            said.append("no step " + step)
            return "c." + step
        body = body.replace(".type-inv", ".type_inv")
        # a test of `!x` says of `x` what it says now
        body = re.sub(r"\(?\bnot-(?:true|false) _ (c(?:\.[\w-]+)+)\)?(?=\))", r"\1", body)
        body = re.sub(r"(?<![\w.'-])(%s)(?:\.before)*\.(?!before)(%s)" % (roots, NAME), path, body)
        for a, b in args.items():
            if a.startswith(".args") or a.startswith(".ranges"):
                body = re.sub(re.escape("c" + a.replace(" ", "")) + r"(?![\w'-])", "c" + b.replace(" ", ""), body)
        return body

    # what an answer was called in this file, and which goal it answers: one may cite another
    called = {}
    for block in defs:
        for l in block:
            m = re.match(r"(%s) : tie\.Need-([\w-]+)" % NAME, l)
            if m:
                key = plain(m[2])
                called[m[1]] = needs.get(key) or needs.get(key.replace("overflow_", "", 1)) or m[1]
    whole = "\n".join(l for b in defs for l in b)
    cited = {n for n in called if len(re.findall(r"(?<![\w.'-])%s(?![\w'-])" % re.escape(n), whole)) > 4}
    def renamed(body):
        return re.sub(r"(?<![\w.'-])%s" % NAME, lambda t: called.get(t[0], t[0]) if t[0] in called and t[0] not in local else t[0], body)
    local = set()

    for block in defs:
        first = next(i for i, l in enumerate(block) if not l.startswith("--"))
        notes, lines = block[:first], block[first:]
        m = re.match(r"(abbrev )?(?:pub )?(%s) : (?:\{.*\} → )?(tie\.([\w-]+)|statement)?" % NAME, lines[0])
        if not m or not m[3]:
            # a lemma of the file's own, maybe about what is known at a place
            for (a, *_), b in sorted(zip(old["places"], old["places_by_name"]), key=lambda p: -len(p[0][0])):
                if a: block = [re.sub(r"tie\.%s(?![\w'-])" % re.escape(a).replace("_", "[_-]"), "@" + b, l) for l in block]
            if any("@" in l for l in block): block = flat("\n".join(block)).split("\n")
            answers.append("\n".join(block)); continue
        if m[3] == "statement":
            continue
        kind = m[4]
        body = "\n".join(lines[1:])
        if m[1]:
            shape, loop = (kind.split("-", 1) + [""])[:2]
            new, vs = loops.get(plain(loop), (None, []))
            if new is None:
                said.append("no loop " + loop); answers.append("\n".join(block)); continue
            eq = re.match(r"%s((?: (?!= )[^\s{}()]+)*) =\s*(.*)$" % re.escape(m[2]), body, re.S)
            params = eq[1].split()
            def var(t):
                v = t[0]
                if v not in params: return v
                base = v.rstrip("₀")
                if plain(base) not in map(plain, vs): said.append("no variable %s in %s %s" % (v, loop, vs))
                return ("l.initial." if v.endswith("₀") else "l.") + base
            inner = re.sub(r"(?<![\w.'₀-₉-])%s" % NAME, var, eq[2])
            goal = shape + "-" + new
            invariants.append("\n".join(notes + ["abbrev pub %s : goal.%s" % (goal, goal), "%s l = %s" % (goal, inner)]))
            continue
        key = plain(kind[len("Need-"):])
        goal = needs.get(key) or needs.get(key.replace("overflow_", "", 1))
        if not goal and body.strip().endswith("= search rules"):
            continue
        if not goal:
            said.append("no need " + kind); answers.append("\n".join(block)); continue
        eq = re.match(r"((?:unfolding .*\n)?)%s((?: (?!= )[^\s{}()]+)*) =(.*)$" % re.escape(m[2]), body, re.S)
        if not eq:
            said.append("unread " + goal); answers.append("\n".join(block)); continue
        rest = eq[3].strip()
        if rest in ("search rules", "refl") and not eq[1]:
            continue
        answers.append("\n".join(notes + ["pub %s : goal.%s" % (goal, goal), "%s%s c =%s" % (eq[1], goal, renamed(flat(eq[3])))]))

    where = "Rattle.%s.proofs.%s" % (crate, os.path.relpath(folder, "proofs").replace("/", "."))
    keep = [l for l in head if not re.search(r"\.(Statement|Tie|Reads|Kinds)\b|\.Lts", l)]
    comment = [l for l in keep if l.startswith("--")]
    uses = [l for l in keep if l.startswith("use")]
    def write(name, parts, module):
        if not parts: return
        body = "\n\n".join(parts)
        chosen = []
        for u in uses:
            u2 = re.match(r"(use [\w.+-]+\.)\{(.*)\}", u)
            if not u2: chosen.append(u); continue
            items = [i.strip() for i in u2[2].split(",")]
            def used(i):
                word = i.split(" as ")[-1].replace("◌", "")
                return re.search(r"(?<![\w'-])%s(?![\w'-])" % re.escape(word), body) if re.match(r"[\w]", word) else word in body
            items = [i for i in items if used(i)]
            if items: chosen.append("%s{%s}" % (u2[1], ", ".join(items)))
        places = sorted(set(re.findall(r"@([\w-]+)", body)))
        body = body.replace("@", "")
        chosen.append("use %s.%s as goal" % (where, module))
        if places: chosen.append("use %s.%s.{%s}" % (where, module, ", ".join(places)))
        open(folder + "/" + name, "w", encoding="utf-8").write("\n".join(comment + chosen) + "\n\n" + body + "\n")
    write("Invariants.antt", invariants, "Given")
    write("Answers.antt", answers, "Goals")
    os.remove(folder + "/Proof.antt")
    print("%s: %d invariants, %d answers%s" % (folder, len(invariants), len(answers), "".join("\n   " + s for s in said)))

def main():
    names = json.load(open(sys.argv[1], encoding="utf-8"))
    crate = os.path.basename(os.getcwd())
    only = sys.argv[2:]
    for base, _, files in sorted(os.walk("proofs")):
        if "Proof.antt" not in files: continue
        rel = os.path.relpath(base, "proofs")
        function = rel.split("/")[-1]
        if only and function not in only: continue
        text = open(base + "/Proof.antt", encoding="utf-8").read()
        if " as tie" not in text:
            print(base + ": by hand"); continue
        found = names.get("Rattle-%s-proofs.%s.Lts" % (crate, rel.replace("/", ".")))
        if not found:
            print(base + ": no names"); continue
        turn(base, found, crate, function)
main()
