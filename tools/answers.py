#!/usr/bin/env python3
"""Turns the proofs of a crate that walk the code by hand (proofs/F/Proof.antt) into invariants and answers.

    python3 tools/answers.py CRATE NAMES GENERATED

NAMES is the names.json of `rt check --generated .. --old-names`, GENERATED the folder of `rt check --generated .. --start F ..`,
both run in the crate's folder. What it can't turn it writes as it was, with a line beginning `-- LEFT`.
"""
import difflib
import json
import os
import re
import sys

STOP = r"\s(){}\[\];,\"`«»"


SAID = {"type-inv": "type_inv", "well-formed": "well_formed"}


def close(s):
    """The bracket of a pair that was read with only one of its ends."""
    return "" if s.startswith("(") == s.endswith(")") else ")"


def norm(s):
    return s.replace("-", "_").replace("_lem", "").replace("_", "").lower()


class Function:
    def __init__(self, data, offered, invariants, crate, path, gen):
        self.d = data
        self.offered = offered
        self.invariants = invariants
        self.crate = crate
        self.path = path
        self.places = {p[0]: p for p in data["places"]}
        self.order = [p[0] for p in data["places"]]
        self.new_place = dict(zip(self.order, data["places_by_name"]))
        self.arms = dict(zip(self.order, data["arms"]))
        self.clauses = dict(zip(self.order, data["clauses"]))
        self.needs = {norm(a): b for a, b in data["needs"]}
        self.need_at = {norm(n[0]): at[0] for n, at in zip(data["needs"], data["asked_at"])}
        self.left = []
        self.answered = {}
        self.cited = set()
        self.lemma_places = {}
        self.exported, self.given = exported(gen)

    def key(self, said, name):
        key = norm(said)
        for pre in ("overflow", "slicebounds", "bounds", "nonzero"):
            if key not in self.needs and key.startswith(pre) and key[len(pre) :] in self.needs:
                key = key[len(pre) :]
        if key not in self.needs and norm(name) in self.needs:
            key = norm(name)
        return key

    def place(self, name):
        for p in self.order:
            if norm(p) == norm(name):
                return self.whole_arm(p)
        return None

    def whole_arm(self, place):
        """The last of an arm's places, which has all that the arm knows."""
        for p in self.order:
            if self.places[p][1] == place and self.arms[p] and self.arms[place] and self.arms[p][1] == self.arms[place][1] + 1 and self.arms[p][0] == self.arms[place][0]:
                return self.whole_arm(p)
        return place

    def up(self, place, n):
        for _ in range(n):
            if place is None:
                return None
            place = self.places[place][1]
        return place

    def chain(self, place):
        while place:
            yield place
            place = self.places[place][1]

    def fields(self, place, rest, what):
        """The clause's name for the number that begins `rest`."""
        said = what
        if not said or not rest:
            return rest
        names = said
        i = 0
        k = 0
        while k < len(rest) and rest[k] in ("0", "1"):
            if rest[k] == "0":
                return [names[i]] + rest[k + 1 :]
            i += 1
            if i == len(names) - 1:
                return [names[i]] + rest[k + 1 :]
            k += 1
        return rest

    def step(self, var, place, befores, parts, root=None):
        """The new path of var.before^n.parts at a place."""
        at = self.up(place, befores)
        head = parts[0]
        if head in ("args", "requires", "ranges", "well_formed", "auto", "utf8", "type_inv"):
            rest = parts[1:]
            if head == "requires" and self.d.get("pre"):
                rest = self.fields("Start", rest, self.d["pre"].get("fields") if isinstance(self.d["pre"], dict) else None)
            return ".".join([var, head] + rest)
        for start in ([at] if at else []) + [place]:
            for p in self.chain(start):
                info = self.places[p]
                if norm(info[2][0]) != norm(head):
                    continue
                rest = parts[1:]
                # an arm of which this step is a part
                best = None
                for q in self.chain(place):
                    arm = self.arms.get(q)
                    if not arm:
                        continue
                    for new, old, path in arm[2]:
                        if norm(old) == norm(info[2][0]) and not new.endswith("-own") and rest[: len(path)] == path:
                            if best is None or len(path) > len(best[2]):
                                best = (arm[0], new, path)
                if best and (best[2] or not rest):
                    return ".".join([var, best[0], best[1]] + rest[len(best[2]) :])
                renamed = {a: b for a, b in info[4]}
                if rest and rest[0] in renamed:
                    rest = [renamed[rest[0]]] + rest[1:]
                if rest and rest[0] == "ensures" and self.clauses.get(p):
                    rest = ["ensures"] + self.fields(p, rest[1:], self.clauses[p]["fields"])
                if len(rest) > 1 and rest[0] == "new" and info[3] in self.d["params"]:
                    names = self.d["params"][info[3]]
                    k, i = 1, 0
                    while k < len(rest) and rest[k] == "1":
                        i, k = i + 1, k + 1
                    if k < len(rest) and rest[k] == "0" and i < len(names):
                        rest = ["new", names[i]] + rest[k + 1 :]
                if best is None and norm(head).startswith(("enumtold", "enumknown", "knowntold", "sharedslice")):
                    self.left.append(f"step {head}.{'.'.join(rest)}")
                return ".".join([var, info[2][1]] + rest)
        known = {norm(self.places[p][2][0]): self.places[p][2][0] for p in self.chain(place) if self.places[p][2][0]}
        near = difflib.get_close_matches(norm(head), list(known), 1, 0.7)
        if near and near[0] != norm(head):
            return self.step(var, place, befores, [known[near[0]]] + parts[1:], root)
        self.left.append("no step " + ".".join([var] + ["before"] * befores + parts))
        return ".".join([var] + ["before"] * befores + parts)

    def term(self, text, scope, goal):
        """The term with its paths renamed; scope: a variable to (what it is written as, its place, how far up that is)."""
        scope = {v: (x[0], x[1], 0, x[1]) for v, x in scope.items()}

        # aliases of places
        def alias(m):
            v, base, befores = m.group(1), m.group(2), m.group(3).count("before")
            if base in scope:
                w, place, far, root = scope[base]
                scope[v] = (w, self.up(place, befores), far + befores, root)
                return ""
            return m.group(0)

        while True:
            new = re.sub(r"let (\w+'?) = (\w+'?)((?:\.before)*) in\s*", alias, text, count=1)
            if new == text:
                break
            text = new

        # names for what an arm binds, and for a call's clauses where they have names now
        seen = 0
        while True:
            m = re.compile(r"let (\w+'?) = (\w+'?(?:\.[\w-]+)*\.(?:given|ensures|requires)(?:\.[01])*) in\s*").search(text, seen)
            if not m:
                break
            if m.group(2).split(".")[0] not in scope or not self.has_names(m.group(2), scope):
                seen = m.end()
                continue
            rest = text[m.end() :]
            rest = re.sub(r"(?<![^\s(){}\[\];,])%s(?=[\s.(){}\[\];,]|$)" % re.escape(m.group(1)), m.group(2), rest)
            text = text[: m.start()] + rest

        # a lemma at a place, given that place: as far up as that place is from here
        def given_place(m):
            lemma, arg = m.group(1), m.group(2)
            base = arg.split(".")[0]
            if base not in scope:
                return m.group(0)
            w, place, far, root = scope[base]
            here = self.goal_place if goal else root
            up = 0
            for p in self.chain(here):
                if p == self.lemma_places[lemma]:
                    view = goal and self.exported.get(self.new_place.get(here)) == "View"
                    return f"{lemma} \0{w}" + ".before" * (up + bool(view))
                # an arm's places are one record
                q = self.places[p][1]
                arm = self.arms.get(p)
                if not (arm and q and self.arms.get(q) and arm[1] > 1):
                    up += 1
            return m.group(0)

        if self.lemma_places:
            names = "|".join(re.escape(x) for x in sorted(self.lemma_places, key=len, reverse=True))
            text = re.sub(r"(?<![^\s(){}\[\];,])(%s) (\w+'?(?:\.before)*)(?![\w.'])" % names, given_place, text)

        def path(m):
            whole = m.group(0)
            parts = whole.split(".")
            if parts[0] not in scope:
                return self.answered.get(whole, whole)
            var, place, far, root = scope[parts[0]]
            rest = parts[1:]
            n = 0
            while n < len(rest) and rest[n] == "before":
                n += 1
            rest = [SAID.get(x, x) for x in rest[n:]]
            rest = rest[:1] + [x.replace("-", "_") for x in rest[1:]]
            if not rest:
                # a goal at a place that Goals shows by a view has the walk's record below it
                view = goal and self.exported.get(self.new_place.get(self.goal_place)) == "View"
                return ".".join([var] + ["before"] * (far + n + bool(view)))
            return self.step(var, place, n, rest, None if goal else root)

        text = re.sub(r"(?<![^\s(){}\[\];,])[A-Za-z_][\w-]*'?(?:\.[^%s.]+)*" % STOP, path, text).replace("\0", "")
        text = re.sub(r"\.(in_default[\w-]*)\.rest\b", r".\1.\1-own.rest", text)
        text = re.sub(r"\(?not-true \S+ (\S+\.true)-raw\)?", lambda m: m.group(1) + close(m.group(0)), text)
        text = re.sub(r"\(?not-false \S+ (\S+\.false)-raw\)?", lambda m: m.group(1) + close(m.group(0)), text)
        return text

    def has_names(self, whole, scope):
        parts = whole.split(".")
        var, place, far, root = scope[parts[0]]
        rest = [x for x in parts[1:] if x != "before"]
        if "given" in rest:
            return True
        if rest[0] == "requires":
            return isinstance(self.d.get("pre"), dict)
        return any(norm(self.places[p][2][0]) == norm(rest[0]) and self.clauses.get(p) for p in self.chain(place))

    def place_type(self, pl, more):
        p = self.place(pl)
        if p is None:
            return None
        self.cited |= {"lts", "tie", "reads"}
        return "lts." + ("Past-" if self.arms[p] else "") + p + self.given


def trailing_record(body, names):
    """Turns the tuple that a term ends in into a record with the clauses' names."""
    text = body.rstrip()
    if not text.endswith(")"):
        return None
    depth = 0
    for i in range(len(text) - 1, -1, -1):
        if text[i] == ")":
            depth += 1
        elif text[i] == "(":
            depth -= 1
            if depth == 0:
                break
    before = text[:i].rstrip()
    if before and not (before.endswith(" in") or before == "" or before.endswith("\n")):
        return None
    inner = text[i + 1 : -1]

    def split(s):
        out, d, last = [], 0, 0
        for k, ch in enumerate(s):
            if ch in "([{":
                d += 1
            elif ch in ")]}":
                d -= 1
            elif ch == "," and d == 0:
                out.append(s[last:k].strip())
                last = k + 1
        out.append(s[last:].strip())
        return [x for x in out if x]

    parts = split(inner)
    while len(parts) < len(names):
        last = parts[-1]
        if last.startswith("(") and last.endswith(")"):
            more = split(last[1:-1])
            if len(more) == 1:
                return None
            parts = parts[:-1] + more
        else:
            return None
    if len(parts) > len(names):
        k = len(names) - 1
        parts = parts[:k] + ["(" + ", ".join(parts[k:]) + ")"]
    rec = "record { " + "; ".join(f"{n} = {p}" for n, p in zip(names, parts)) + " }"
    return text[:i] + rec


def projected(body, names):
    """The same for a term that gives a product, or a call's clauses."""
    cut = body.rfind(" in\n")
    cut2 = body.rfind(" in ")
    at = max(cut + 4 if cut >= 0 else 0, cut2 + 4 if cut2 >= 0 else 0)
    start, last = body[:at], body[at:].strip()
    if "record {" in last or last.startswith(("elim", "⊎_elim")):
        return None
    if re.match(r"^\S+\.ensures$", last):
        parts = [f"{last}.{n}" for n in names]
    else:
        parts = []
        for i in range(len(names)):
            parts.append(f"({last})" + ".1" * i + (".0" if i < len(names) - 1 else ""))
    space = re.search(r"\s*$", start).group(0) if start else ""
    rec = "record { " + "; ".join(f"{n} = {p}" for n, p in zip(names, parts)) + " }"
    return start + ("    " if start.endswith("\n") else "") + rec


def blocks(text):
    """Comment head, use lines, and declarations (signature and clauses)."""
    lines = text.split("\n")
    head, uses, decls = [], [], []
    i = 0
    while i < len(lines) and (lines[i].startswith("--") or lines[i] == ""):
        head.append(lines[i])
        i += 1
    cur = []
    pending = []
    for line in lines[i:]:
        if re.match(r"^(use|open|pub use)\s", line):
            uses.append(line)
        elif line.startswith("--"):
            if cur:
                decls.append(cur)
                cur = []
            pending.append(line)
        elif line == "":
            if cur:
                decls.append(cur)
                cur = []
        else:
            if pending:
                cur += pending
                pending = []
            cur.append(line)
    if cur:
        decls.append(cur)
    return head, uses, decls


def bound(d):
    """A lemma at a place whose parameter has no name in its type: gives it the name of its clause."""
    for i, line in enumerate(d):
        m = re.match(r"^((?:abbrev |pub |unfoldable )*)(\S+) : (tie\.(?!Need-|invariant|decreases)[^\s→]+(?: [\w.-]+)*) → (.*)$", line)
        if m:
            clause = next((x for x in d[i + 1 :] if x.startswith(m.group(2) + " ")), None)
            if clause:
                c = clause.split()[1]
                return d[:i] + [f"{m.group(1)}{m.group(2)} : ({c} : {m.group(3)}) → {m.group(4)}"] + d[i + 1 :]
    return d


def spelled_out(decls, fn):
    """The answers that stand in the call of `tie.spec` itself, as declarations."""
    out = []
    for d in decls:
        code = [x for x in d if not x.startswith("--")]
        if not code or "statement M" not in code[0] or not any("λ" in x for x in code):
            continue
        un = [x for x in code if x.startswith("unfolding")]
        text = "\n".join(x for x in code if not x.strip().startswith("--"))
        text = text[text.index("tie.spec") + len("tie.spec") :]
        text = re.sub(r"\s--[^\n]*", "", text)
        items, depth, start = [], 0, None
        i = 0
        while i < len(text):
            ch = text[i]
            if ch == "(":
                if depth == 0:
                    start = i
                depth += 1
            elif ch == ")":
                depth -= 1
                if depth < 0:
                    break
                if depth == 0:
                    items.append(text[start + 1 : i])
            elif depth == 0 and not ch.isspace():
                m = re.match(r"[^\s()]+", text[i:])
                items.append(m.group(0))
                i += len(m.group(0)) - 1
            i += 1
        needs = fn.d["needs"]
        if len(items) != len(needs):
            fn.left.append(f"{len(items)} answers for {len(needs)} goals")
            continue
        for item, (old, new) in zip(items, needs):
            m = re.match(r"^λ ([^.]+)\.\s(.*)$", item.strip(), re.S)
            if m:
                out.append([f"{old} : tie.Need-{old}"] + un + [f"{old} {m.group(1)} = {m.group(2)}"])
    return out


def turn(text, fn, module):
    head, uses, decls = blocks(text)
    answers, invs = [], []
    dropped = []
    own = {}
    decls = [bound(d) for d in decls] + spelled_out(decls, fn)
    for d in decls:
        code = [x for x in d if not x.startswith("--")]
        if not code:
            continue
        m = re.match(r"^(?:abbrev )?(\S+) :\s*\((\w+) : (?:tie|lts)\.([^\s()]+)", code[0])
        if m and fn.place(m.group(3)):
            fn.lemma_places[m.group(1)] = fn.place(m.group(3))
        m = re.match(r"^((?:abbrev |pub |unfoldable )*)(\S+) :\s*tie\.Need-(\S+)", code[0])
        if m:
            key = fn.key(m.group(3), m.group(2))
            if key in fn.needs:
                fn.answered[m.group(2)] = fn.needs[key]
    for d in decls:
        code = [x for x in d if not x.startswith("--")]
        if not code:
            answers.append("\n".join(d))
            continue
        notes = [x for x in d if x.startswith("--")]
        sig = code[0]
        m = re.match(r"^((?:abbrev |pub |unfoldable )*)(\S+) :\s*(.*)$", sig)
        if not m:
            r = re.match(r"^(?:pub )?(?:record|data) (\S+)", sig)
            if r:
                own[r.group(1)] = "\n".join(d)
                answers.append("\n".join(d))
                continue
            answers.append("-- LEFT: not read\n" + "\n".join(d))
            continue
        mods, name, kind = m.groups()
        k = 1
        while k < len(code) and code[k].startswith("    ") and not re.match(r"^\s*$", code[k]):
            kind += " " + code[k].strip()
            k += 1
        rest = code[k:]
        if "statement M" in kind:
            continue
        inv = re.match(r"tie\.(invariant|decreases)-(\S+)", kind)
        if inv:
            loop = inv.group(2)
            found = None
            for (old, new), vs in fn.d["loops"]:
                if norm(old) == norm(loop):
                    found = (new, vs)
            if not found:
                invs.append("-- LEFT: no loop\n" + "\n".join(d))
                continue
            new, vs = found
            nm = f"{inv.group(1)}-{new}"
            un = [x for x in rest if x.startswith("unfolding")]
            body = "\n".join(x for x in rest if not x.startswith("unfolding"))
            mm = re.match(r"^\S+((?:\s+[^\s=]+)*)\s*=\s*(.*)$", body, re.S)
            params = mm.group(1).split()
            body = mm.group(2)
            names = {}
            for p in params:
                if p.endswith("₀"):
                    names[p] = "l.initial." + p[:-1]
                else:
                    names[p] = "l." + p

            def sub(m2):
                parts = m2.group(0).split(".")
                if parts[0] in names:
                    return ".".join([names[parts[0]]] + parts[1:])
                return m2.group(0)

            body = re.sub(r"(?<![^\s(){}\[\];,])(?:«\w+»|[A-Za-z_])[\w₀']*(?:\.[^%s.]+)*" % STOP, sub, body)
            invs.append("\n".join(notes + [f"abbrev pub {nm} : goal.{nm}"] + un + [f"{nm} l = {body}"]))
            continue
        need = re.match(r"tie\.Need-(\S+)", kind)
        if need:
            key = fn.key(need.group(1), name)
            body = "\n".join(x for x in rest if not x.startswith("unfolding"))
            un = [x for x in rest if x.startswith("unfolding")]
            mm = re.match(r"^\S+((?:\s+[^\s=]+)*)\s*=\s*(.*)$", body, re.S)
            params = mm.group(1).split()
            body = mm.group(2)
            plain = body.strip()
            if plain in ("search rules", "tt"):
                continue
            if key not in fn.needs:
                answers.append(f"-- LEFT: no goal {need.group(1)}\n" + "\n".join("-- " + x for x in d))
                fn.left.append("no goal " + need.group(1))
                continue
            new = fn.needs[key]
            clauses = [g[len(new) + len("-clause-") :] for g in fn.offered if g.startswith(new + "-clause-")]
            if new not in fn.offered and not clauses:
                dropped.append(f"{need.group(1)} -> {new}: not offered: {plain[:80]}")
                continue
            place = fn.need_at[key]
            fn.goal_place = place
            out = fn.term(body, {params[-1] if len(params) == 1 else params[0]: ("c", place)}, new)
            if len(params) > 1 and any(re.search(r"(?<![\w])%s(?![\w])" % re.escape(p), out) for p in params[1:]):
                fn.left.append(f"{new}: uses {params[1:]}")
            asked = [v for k2, v in fn.d["asked"].items() if norm(k2) == key]
            if asked and asked[0]:
                clauses = list(asked[0].values()) if isinstance(asked[0], dict) else asked[0]
            if len(clauses) > 1:
                rec = trailing_record(out, clauses) or projected(out, clauses)
                if rec is None:
                    fn.left.append(f"{new}: not a tuple for {clauses}")
                else:
                    out = rec
            answers.append("\n".join(notes + [f"pub {new} : goal.{new}"] + un + [f"{new} c = {out}"]))
            continue
        # a lemma of the file
        tm = re.findall(r"\((\w+'?) : (?:tie|lts)\.([^\s()]+)((?:\s+[\w.-]+)*)\)", kind)
        if not tm and re.match(r"(?:tie|lts)\.[^\s()]+ → ", kind):
            first = re.match(r"(?:tie|lts)\.([^\s()]+) → ", kind).group(1)
            tp = fn.place_type(first, "")
            if tp:
                kind = tp + kind[kind.index(" → ") :]
        if tm:
            scope = {}
            newkind = kind
            for v, pl, more in tm:
                tp = fn.place_type(pl, more)
                if tp is None:
                    fn.left.append(f"lemma {name}: no place {pl}{more}")
                    continue
                scope[v] = (v, fn.place(pl))
                newkind = newkind.replace(f"({v} : tie.{pl}{more})", f"({v} : {tp})").replace(f"({v} : lts.{pl}{more})", f"({v} : {tp})")
            un = [x for x in rest if x.startswith("unfolding")]
            body = "\n".join(x for x in rest if not x.startswith("unfolding"))
            newkind = fn.term(newkind, scope, None)
            mm = re.match(r"^(\S+)((?:\s+[^\s=]+)*)\s*=\s*(.*)$", body, re.S)
            if mm:
                params = mm.group(2).split()
                sc = {}
                if params and tm[0][0] in scope:
                    pos = len(re.findall(r"\((?:[^()]| )*? : ", kind[: kind.index(f"({tm[0][0]} : ")]))
                    idx = min(pos, len(params) - 1)
                    sc = {params[idx]: (params[idx], scope[tm[0][0]][1])}
                body = f"{name}{mm.group(2)} = " + fn.term(mm.group(3), sc, None)
            answers.append("\n".join(notes + [f"{mods}{name} : {newkind}"] + un + [body]))
            continue
        own[name] = "\n".join(d)
        answers.append("\n".join(d))
    keep = [
        u
        for u in uses
        if not re.search(r"\.(Statement|Tie|Reads|Lts)(\.| as |$)|borrow\.Author\.Rules\.", u)
    ]
    # what the invariants speak of stands with them
    moved = []
    todo = list(invs)
    while todo:
        text = todo.pop()
        for n, t in own.items():
            if n not in moved and re.search(r"(?<![^\s(){}\[\];,.])%s(?![^\s(){}\[\];,.])" % re.escape(n), text):
                moved.append(n)
                todo.append(t)
    front = []
    for n, t in own.items():
        if n in moved:
            answers.remove(t)
            lines = t.split("\n")
            k = next(i for i, x in enumerate(lines) if not x.startswith("--"))
            if not re.match(r"^(abbrev )?pub ", lines[k]):
                lines[k] = re.sub(r"^(abbrev |unfoldable )?", lambda m: (m.group(1) or "") + "pub ", lines[k])
            if re.match(r"^pub (record|data)", lines[k]):
                lines = [re.sub(r"^  (?=[\w' ]+ : )", "  pub ", x) if lines[k].startswith("pub record") else x for x in lines]
            front.append("\n".join(lines))
    invs = front + invs
    fn.moved = [n for n in own if n in moved]
    return head, keep, answers, invs, dropped


def exported(folder):
    """The places that Goals names, and what the walk's records are given."""
    p = os.path.join(folder, "Goals.antt")
    if not os.path.exists(p):
        return {}, ""
    text = open(p, encoding="utf-8").read()
    names = {m.group(1): m.group(2) for m in re.finditer(r"^abbrev pub (\S+) : Type 0\n\1 =\s+(View|Lts)\.", text, re.M)}
    flat = re.sub(r"\s+", " ", text)
    best = ""
    for m in re.finditer(r"(?:View|Lts)\.\S+((?: Tie\.the-claims)? Reads\.Pre Reads\.Post(?: the-[^\s()]+)*(?: Tie\.handed_clauses)?)", flat):
        if len(m.group(1)) > len(best):
            best = m.group(1)
    given = best.replace(" Tie.", " tie.").replace(" Reads.", " reads.").replace(" the-invariant", " goal.the-invariant").replace(" the-decreases", " goal.the-decreases")
    return names, given


def offered(folder):
    out, inv = [], []
    for f, l in (("AnswersOffered.antt", out), ("InvariantsOffered.antt", inv)):
        p = os.path.join(folder, f)
        if os.path.exists(p):
            for line in open(p, encoding="utf-8"):
                m = re.match(r"^(?:abbrev )?pub (\S+) :(?: goal\.|$)", line)
                if m:
                    l.append(m.group(1))
    return out, inv


def main():
    crate, names, generated = sys.argv[1:4]
    old = sys.argv[4] if len(sys.argv) > 4 else f"crates/{crate}/proofs"
    data = json.load(open(names, encoding="utf-8"))
    for top, _, fs in sorted(os.walk(old)):
        if "Proof.antt" not in fs:
            continue
        path = os.path.relpath(top, old)
        module = path.replace("/", ".")
        key = f"Rattle-{crate}-proofs.{module}.Lts"
        if key not in data:
            print(f"{path}: LEFT no names for {key}")
            continue
        gen = os.path.join(generated, f"Rattle-{crate}-proofs", path)
        off, inv = offered(gen)
        fn = Function(data[key], off, inv, crate, path, gen)
        text = open(os.path.join(top, "Proof.antt"), encoding="utf-8").read()
        head, uses, answers, invs, dropped = turn(text, fn, module)
        target = f"crates/{crate}/proofs/{path}"
        os.makedirs(target, exist_ok=True)
        head = [h for h in head if h.strip()]
        if invs:
            with open(f"{target}/Invariants.antt", "w", encoding="utf-8") as f:
                f.write("\n".join(head + uses + [f"use Rattle.{crate}.proofs.{module}.Given as goal"]) + "\n\n" + "\n\n".join(invs) + "\n")
        if answers:
            with open(f"{target}/Answers.antt", "w", encoding="utf-8") as f:
                more = [f"use Rattle.{crate}.proofs.{module}.Goals as goal"]
                for w, name in (("tie", "Tie"), ("lts", "Lts"), ("reads", "Reads")):
                    if w in fn.cited:
                        more.append(f"use Rattle.{crate}.proofs.{module}.{name} as {w}")
                if fn.moved:
                    more.append(f"use Rattle.{crate}.proofs.{module}.Invariants.{{{', '.join(fn.moved)}}}")
                f.write("\n".join(head + uses + ["use borrow.Author.Rules.{rules}"] + more) + "\n\n" + "\n\n".join(answers) + "\n")
        for d in dropped:
            print(f"{path}: dropped {d}")
        for l in fn.left:
            print(f"{path}: LEFT {l}")


if __name__ == "__main__":
    main()
