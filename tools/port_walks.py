#!/usr/bin/env python3
"""Turns the proofs that walk the code (Proof.antt, by position) into answers and invariants by name.

usage: python3 tools/port_walks.py NAMES CRATE [FUNCTION..]      at the top of the repository
NAMES is the names.json that `rt check --generated DIR --old-names` writes in the crate's folder.
"""
import json
import os
import re
import sys

WORD = r"[\wℕℤ'₀-₉⁺⁻+]"
NAME = rf"{WORD}+(?:-{WORD}+)*"
DROPPED = ("enum_known", "enum_told", "known_told")


def split_args(text):
    """The arguments of tie.spec, each a word or a group in parentheses."""
    args, i = [], 0
    while i < len(text):
        if text[i].isspace():
            i += 1
            continue
        j = i
        if text[i] in "(":
            depth = 0
            while True:
                if text[j] in "([{":
                    depth += 1
                elif text[j] in ")]}":
                    depth -= 1
                j += 1
                if depth == 0:
                    break
        else:
            while j < len(text) and not text[j].isspace() and text[j] != ")":
                j += 1
            if j == i:
                raise ValueError("stray " + text[i : i + 30])
        args.append(text[i:j])
        i = j
    return args


def clauses_of(crates):
    """For each function of the crates, by its path, the names of its requires and of its ensures; a lone clause has no name."""
    found = {}
    for crate in crates:
        top = f"crates/{crate}/src"
        for folder, _, names in os.walk(top):
            for name in names:
                if not name.endswith(".rt"):
                    continue
                module = [] if name in ("lib.rt", "main.rt") else [name[:-3]]
                owner, function = [], None
                for line in open(os.path.join(folder, name), encoding="utf-8"):
                    m = re.match(r"impl(?:<[^>]*>)? (\w+)", line)
                    if m:
                        owner = [m.group(1)]
                    if line.startswith("}"):
                        owner = []
                    m = re.match(r"\s*(?:pub(?:\([^)]*\))? )?(?:unsafe )?(?:extern \"C\" )?fn (\w+)", line)
                    if m:
                        function = "::".join([crate] + module + owner + [m.group(1)])
                        found[function] = {"requires": [], "ensures": []}
                    m = re.match(r"\s*(requires|ensures)\*? ?(\w*) ?\{", line)
                    if m and function:
                        found[function][m.group(1)].append(m.group(2))
    return found


CLAUSES = {}


def in_clauses(kind, function, rest):
    """A path into the clauses of a function, by name."""
    names = CLAUSES.get(function, {}).get(kind, [])
    if len(names) > 1 and rest and rest[0].isdigit() and int(rest[0]) < len(names):
        return [names[int(rest[0])]] + rest[1:]
    return rest


class Function:
    def __init__(self, table, own=None):
        self.own = own
        self.params = table["params"]
        self.needs = table["needs"]
        self.asked = table["asked_at"]
        self.places = {p[0]: p for p in table["places"]}
        self.index = {p[0]: i for i, p in enumerate(table["places"])}
        self.by_name = table["places_by_name"]
        self.arms = table["arms"]
        self.loops = table["loops"]
        self.changed = table["changed"]
        self.problems = []

    def up(self, place, n):
        for _ in range(n):
            parent = self.places[place][1]
            if parent is None:
                pass
                return place
            place = parent
        return place

    def exported(self, place):
        """The name of a place's record: that of the nearest place at or above it that has one of its own."""
        return re.sub(r"-\d+$", "", self.by_name[self.index[place]]) if self.by_name[self.index[place]].startswith(("In-", "In_")) else self.by_name[self.index[place]]

    def path(self, var, place, ups, fields, goal):
        here = self.up(place, ups)
        fields = [f for f in fields]
        if not fields:
            if goal is None:
                return f"{var}" if here == place else f"({var} at {here})"
            return f"(goal.at.{goal} {var}).{self.exported(here)}"
        step, rest = fields[0], fields[1:]

        def same(a, b):
            return a.replace("-", "_") == b.replace("-", "_")

        if not same(step, self.places[here][2][0]):
            # there may be places of today between: the nearest one above that has this step
            at = place
            while at is not None and not same(step, self.places[at][2][0]):
                at = self.places[at][1]
            if at is not None:
                here = at
        old, new = self.places[here][2]
        if same(step, old):
            # what a pattern binds, and what an arm says
            best = None
            for at in (here, place):
                arm = self.arms[self.index[at]]
                if not arm:
                    continue
                for field, of, prefix in arm[2]:
                    if same(of, old) and rest[: len(prefix)] == prefix and rest and (best is None or len(prefix) > len(best[1])):
                        best = (f"{arm[0]}.{field}", prefix)
            if best:
                return ".".join([var, best[0]] + rest[len(best[1]) :])
            callee = self.places[here][3]
            if callee and rest and rest[0] in ("ensures", "requires"):
                rest = [rest[0]] + in_clauses(rest[0], callee, rest[1:])
            if callee in self.params and rest and rest[0] == "new":
                j = 1
                while j < len(rest) and rest[j] == "1":
                    j += 1
                if j < len(rest) and rest[j] == "0" and j - 1 < len(self.params[callee]):
                    rest = ["new", self.params[callee][j - 1]] + rest[j + 1 :]
            return ".".join([var, new] + rest)
        if step == "requires":
            rest = in_clauses("requires", self.own, rest)
        fields = [step.replace("well-formed", "well_formed")] + rest
        if step not in ("args", "requires", "ranges", "well_formed", "well-formed", "lifetimes"):
            self.problems.append(f"no step {step} above {place}")
        return ".".join([var] + fields)

    def turn(self, body, places, goal):
        """A term with its paths turned. places: the place of each record in scope."""
        # an alias for a record further up
        while True:
            m = re.search(rf"let ({NAME})(?: : [^=]*?)? = ({NAME})((?:\.before)*) in ", body)
            if not m or m.group(2) not in places or (not m.group(3) and False):
                m2 = None
                for m2 in re.finditer(rf"let ({NAME}) = ({NAME})((?:\.before)+) in ", body):
                    if m2.group(2) in places:
                        break
                else:
                    m2 = None
                if m2 is None:
                    break
                m = m2
            places = dict(places)
            root = m.group(2)
            body = body[: m.start()] + body[m.end() :]
            ups = m.group(3)
            body = re.sub(rf"(?<![\w'.-]){re.escape(m.group(1))}(?![\w'-])", lambda _: root + ups, body)

        def one(m):
            var = m.group(1)
            if var not in places:
                return m.group(0)
            fields = [f for f in m.group(2).split(".") if f]
            ups = 0
            while ups < len(fields) and fields[ups] == "before":
                ups += 1
            if not fields:
                # the record itself, handed to a lemma
                return self.path(var, places[var], 0, [], goal) if goal else var
            return self.path(var, places[var], ups, fields[ups:], goal)

        return re.sub(rf"(?<![\w'.⟨-])({NAME})((?:\.{NAME})*)(?![\w'])", one, body)


def as_record(term, names, f, goal):
    """A tuple of the clauses as a record of them."""
    at = term.rfind(" in\n    ")
    head, last = ("", term) if at < 0 else (term[: at + len(" in\n    ")], term[at + len(" in\n    ") :])
    # the lets of one line
    while True:
        m = re.match(r"(?s)\s*let .*? in ", last)
        if not m:
            break
        depth, i = 0, m.end()
        text = last[:i]
        if text.count("(") != text.count(")") or len(re.findall(r"\blet\b", text)) != 1:
            break
        head, last = head + text, last[i:]
    last = last.strip()
    if last.startswith("(") and split_args(last)[0] == last:
        inner, parts, depth, start = last[1:-1], [], 0, 0
        for i, ch in enumerate(inner):
            if ch in "([{":
                depth += 1
            elif ch in ")]}":
                depth -= 1
            elif ch == "," and depth == 0:
                parts.append(inner[start:i].strip())
                start = i + 1
        parts.append(inner[start:].strip())
        if len(parts) == len(names):
            return head + "record { " + "; ".join(f"{n} = {p}" for n, p in zip(names, parts)) + " }"
    f.problems.append(f"{goal} has clauses {names}, and its answer is no tuple of them")
    return term


def blocks(text):
    """The paragraphs of a file."""
    return re.split(r"\n(?=\S)", text)


def turn_file(path, crate, function, table):
    text = open(path, encoding="utf-8").read()
    own = "::".join([crate] + function)
    f = Function(table, own)
    name = os.path.basename(os.path.dirname(path))
    lines = text.split("\n")
    uses = [l for l in lines if l.startswith("use ")]
    body = "\n".join(l for l in lines if not l.startswith("use "))
    uses = [l for l in uses if not re.search(r"\.(Statement\.\{|Tie as)", l)]
    stem = re.sub("[_-]", "[_-]", name) + "[_-]spec"
    m = re.search(rf"(?m)^(?:pub )?{stem} : .*\n(?:\s+.*\n)*?(?:(unfolding .*)\n)?{stem}( [^=\n]*)? =\s*\n?\s*tie\.close\s*\n?\s*", body)
    if not m:
        return ["no specification in " + path]
    head = body[: m.start()]
    unfolding = m.group(1)
    rest = body[m.end() :].strip()
    tail = ""
    if rest.startswith("(tie.spec"):
        inner = split_args(rest)[0]
        tail = rest[len(inner) :].strip()
        args = split_args(inner[1:-1])[1:]
    elif rest.startswith("tie.spec"):
        args = []
    else:
        return [f"unread {path}: {rest[:60]}"]
    if tail:
        # a `where` block
        f.problems.append("a tail: " + tail[:60])
    measures = [a for a in args if re.fullmatch(rf"(invariant|decreases)-{NAME}", a)]
    answers = args[len(measures) :]
    if len(answers) != len(f.needs):
        return [f"{path}: {len(answers)} answers for {len(f.needs)} goals"]
    # the invariants and helpers that stand above
    given, helpers = [], []
    for block in blocks(head):
        if not block.strip():
            continue
        helpers.append(block)
    out_given, out_help = [], []
    text_help = "\n".join(helpers)
    # definitions of invariants and measures, by clauses
    for kind in ("invariant", "decreases"):
        for (old, new), variables in f.loops:
            changed = f.changed[f.loops.index([[old, new], variables])]
            sig = re.search(rf"(?m)^abbrev {kind}-{re.escape(old)} : .*\n(?:unfolding .*\n)?{kind}-{re.escape(old)}((?: [^\s=]+)*) =((?:.*\n?)(?:[ \t]+.*\n?)*)", text_help)
            if not sig:
                f.problems.append(f"no {kind}-{old}")
                continue
            params = sig.group(1).split()
            n = len(variables)
            subst = {}
            firsts, lasts = params[:n], params[n:]
            now = [v for v, c in zip(variables, changed) if c]
            if len(lasts) not in (len(now), len(now) + 1) or len(firsts) != n:
                f.problems.append(f"{kind}-{old} has {len(params)} parameters for {n} + {len(now)}")
            for p, v, c in zip(firsts, variables, changed):
                subst[p] = f"l.initial.{v}" if c else f"l.{v}"
            for p, v in zip(lasts, now):
                subst[p] = f"l.{v}"
            term = sig.group(2)
            term = re.sub(rf"(?<![\w'.-])({NAME})(?![\w'-])", lambda m: subst.get(m.group(1), m.group(1)), term)
            out_given.append(f"abbrev pub {kind}-{new} : goal.{kind}-{new}\n{kind}-{new} l ={term.rstrip()}\n")
            text_help = text_help[: sig.start()] + text_help[sig.end() :]
    # one definition at a time; those over a record become lets in the answers that use them
    pieces = re.split(r"\n(?=(?:--|(?:pub |abbrev |unfoldable )*[^\s:=]+ :))", text_help)
    joined = []
    for piece in pieces:
        if joined and all(l.startswith("--") or not l.strip() for l in joined[-1].split("\n")):
            joined[-1] += "\n" + piece
        else:
            joined.append(piece)
    lemmas, out_help, asked = {}, [], {}
    for piece in joined:
        if not piece.strip():
            continue
        m = re.search(rf"(?s)(?m:^)(?:pub |abbrev )*({NAME}) : \(({NAME}) : tie\.({NAME})[^()]*\) → (.*?)\n((?:unfolding [^\n]*\n)?)\1 {NAME}((?: {NAME})*) =(.*)", piece)
        need = re.search(rf"(?s)(?m:^)(?:pub |abbrev )*({NAME}) : tie\.Need-[^\n]*\n((?:unfolding [^\n]*\n)?)\1((?: {NAME})*) =(.*)", piece)
        if need:
            # an answer that stands by itself
            asked[need.group(1)] = (need.group(3).split(), " ".join(need.group(4).split()), need.group(2).strip())
        elif m and not re.search(rf"(?m)^{re.escape(m.group(1))} ", m.group(7)):
            lemmas[m.group(1)] = dict(var=m.group(2), place=m.group(3), type=" ".join(m.group(4).split()), unfolding=m.group(5).strip(), params=m.group(6).split(), body=" ".join(m.group(7).split()))
        else:
            if "tie." in piece:
                f.problems.append("a helper by hand: " + piece.strip()[:60])
            out_help.append(piece.strip("\n") + "\n")

    def with_lets(term, places, goal):
        """The term with lets for the helpers that it uses, each in terms of the record at hand."""
        used, opened = {}, set()

        def uses(text, var, up):
            for name, h in lemmas.items():
                for m in re.finditer(rf"(?<![\w'.-]){re.escape(name)} {re.escape(var)}((?:\.before)*)(?![\w'.-])", text):
                    n = up + m.group(1).count(".before")
                    if name in used:
                        if used[name] != n:
                            f.problems.append(f"{name} at two places in {goal}")
                        continue
                    uses(h["type"] + " " + h["body"], h["var"], n)
                    used[name] = n

        var = next(iter(places))
        uses(term, var, 0)

        def put(text, v, up):
            # a call of a helper is the name of its let
            for name in lemmas:
                text = re.sub(rf"\({re.escape(name)} {re.escape(v)}(?:\.before)*\)", name, text)
                text = re.sub(rf"(?<![\w'.-]){re.escape(name)} {re.escape(v)}(?:\.before)*(?![\w'.-])", name, text)
            return re.sub(rf"(?<![\w'.-]){re.escape(v)}(?=[.\s)]|$)", lambda _: var + ".before" * up, text)

        lets = ""
        for name, n in used.items():
            h = lemmas[name]
            if h["unfolding"]:
                opened.add(h["unfolding"][len("unfolding ") :])
            body = f.turn(put(h["body"], h["var"], n), places, goal)
            if h["params"]:
                body = f"λ {' '.join(h['params'])}. {body}"
            lets += f"let {name} : {f.turn(put(h['type'], h['var'], n), places, goal)} = {body} in\n    "
        return (("\n    " + lets) if lets else "") + f.turn(put(term, var, 0), places, goal).strip(), opened

    out = []
    for (old, new), (at, _), arg in zip(f.needs, f.asked, answers):
        if new.startswith(DROPPED):
            continue
        apart = ""
        if arg in asked:
            names, term, apart = asked[arg]
            var, extra = (names or ["c"])[0], names[1:]
            if not names:
                term = f"({term}) c"
        elif arg.startswith("("):
            inner = arg[1:-1].strip()
            m = re.match(r"λ ((?:[^\s.]+ ?)+?)\. ?", inner)
            if m:
                names = m.group(1).split()
                term = inner[m.end() :]
                var = names[0]
                extra = names[1:]
            else:
                var, extra, term = "c", [], f"({inner}) c"
        else:
            var, extra, term = "c", [], f"{arg} c"
        if var == "_":
            var = "c"
        if var != "c":
            term = re.sub(rf"(?<![\w'.-]){re.escape(var)}(?![\w'-])", "c", term)
            var = "c"
        if term.strip() in ("search rules", "refl") and not unfolding and not apart and not (extra and extra != ["κs"]):
            if term.strip() == "search rules":
                continue
        extra = [x for x in extra if x != "κs"]
        turned, opened = with_lets(term, {var: at}, new)
        names = None
        if re.match(r"returns(-|$)", new):
            names = CLAUSES.get(own, {}).get("ensures", [])
        elif new.endswith("-requires") or re.search(r"-requires(-|$)", new):
            callee = f.places[at][3]
            for place in f.places.values():
                if place[3] and new.startswith(place[3].split("::")[-1]) and len(CLAUSES.get(place[3], {}).get("requires", [])) > 1:
                    names = CLAUSES[place[3]]["requires"]
        if names and len(names) > 1:
            turned = as_record(turned, names, f, new)
        words = ([unfolding[len("unfolding ") :]] if unfolding else []) + ([apart[len("unfolding ") :]] if apart else []) + sorted(opened)
        unfold = "unfolding " + " ".join(dict.fromkeys(" ".join(words).split())) if words else ""
        left = f"{new} {var}" + "".join(" " + x for x in extra)
        out.append(f"pub {new} : goal.{new}\n" + (unfold + "\n" if unfold else "") + (f"{left} = {turned}\n" if not turned.startswith("\n") else f"{left} ={turned}\n"))
    folder = os.path.dirname(path)
    dotted = ".".join(["Rattle", crate, "proofs"] + function)
    if out_given:
        with open(os.path.join(folder, "Invariants.antt"), "w") as g:
            g.write("\n".join(uses + [f"use {dotted}.Given as goal", "", ""]) + "\n".join(out_given))
    if out:
        with open(os.path.join(folder, "Answers.antt"), "w") as g:
            g.write("\n".join(uses + [f"use {dotted}.Goals as goal", "", ""]) + "\n".join(out_help + out))
    elif out_help and any(p.strip() for p in out_help):
        f.problems.append("helpers without answers")
    os.remove(path)
    return [f"{path}: {p}" for p in f.problems]


def main():
    tables = json.load(open(sys.argv[1]))
    crate = sys.argv[2]
    only = sys.argv[3:]
    CLAUSES.update(clauses_of(sorted(os.listdir("crates"))))
    top = f"crates/{crate}/proofs"
    n = 0
    for folder, dirs, names in os.walk(top):
        dirs.sort()
        if "Proof.antt" not in names:
            continue
        function = os.path.relpath(folder, top).split(os.sep)
        if only and ".".join(function) not in only and function[-1] not in only:
            continue
        key = f"Rattle-{crate}-proofs." + ".".join(function) + ".Lts"
        if key not in tables:
            print(f"{folder}: no names")
            continue
        for said in turn_file(os.path.join(folder, "Proof.antt"), crate, function, tables[key]):
            print(said)
        n += 1
    print(f"{n} files")


main()
