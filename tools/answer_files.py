#!/usr/bin/env python3
"""Turns the old proofs by hand of a crate's functions, proofs/F/Proof.antt, into Invariants.antt and Answers.antt.

usage: tools/answer_files.py NAMES CRATE [F ..]      NAMES is the file names.json of `rt check --generated DIR --old-names` in the crate's folder

The answers keep their terms: what is renamed is the goals, the steps on the way to them and the arms of a match. Answers that only said what the
check finds by itself go. It says what it could not turn ('look:').
"""
import json
import os
import re
import sys

TOP = os.path.dirname(os.path.dirname(os.path.realpath(__file__)))
NAME = r"[A-Za-z_][\w₀-₉'-]*"
START = {"args", "ranges", "requires", "well_formed", "lifetimes", "utf8", "type_inv"}


def norm(s):
    s = re.sub(r"[-_]", "_", s).lower()
    return re.sub(r"_lem(\d*)$", r"\1", s)


class Function:
    def __init__(self, entry):
        self.places = entry["places"]
        self.new_places = entry["places_by_name"]
        self.index = {norm(p[0]): i for i, p in enumerate(self.places)}
        self.arms = entry["arms"]
        self.clauses = entry["clauses"]
        self.params = entry["params"]
        self.needs = {norm(o): n for o, n in entry["needs"]}
        self.need_place = {norm(o): norm(a[0]) for (o, _), a in zip(entry["needs"], entry["asked_at"])}
        self.asked = {norm(o): c for o, c in entry["asked"].items()}
        self.loops = {norm(l[0][0]): (l[0][1], l[1], ch) for l, ch in zip(entry["loops"], entry["changed"])}
        self.said = []
        self.last_fields = None
        # the goal that is being answered
        self.goal = None

    def inside(self, text):
        """The answers that stand in the list of tie.spec itself, and say more than the check finds: goal, place and term."""
        text = text.strip()
        if text.endswith(")"):
            text = text[:-1]
        args, i = [], 0
        while i < len(text):
            if text[i] == " ":
                i += 1
                continue
            j = Turner.match(text, i) + 1 if text[i] == "(" else (text.find(" ", i) if " " in text[i:] else len(text))
            args.append(text[i:j])
            i = j
        args = args[2 * len(self.loops) :]
        needs = list(self.needs)
        if len(args) != len(needs):
            self.said.append(f"{len(args)} answers for {len(needs)} goals")
        for need, arg in zip(needs, args):
            m = re.match(r"\(λ c(?: κs)?\. (.*)\)$", arg)
            if m and m.group(1) != "search rules":
                yield self.needs[need], self.index[self.need_place[need]], m.group(1)

    def parent(self, i):
        p = self.places[i][1]
        return None if p is None else self.index[norm(p)]

    def find_step(self, i, step):
        """The place at or above i whose own step has this name."""
        while i is not None:
            if norm(self.places[i][2][0]) == norm(step):
                return i
            i = self.parent(i)
        return None

    def chain(self, i, base, fields):
        """The term base.fields, where base is at place i: its new text, and its place if it is one."""
        n = 0
        while fields and fields[0] == "before":
            up = self.parent(i)
            if up is None:
                fields = [x for k, x in enumerate(fields) if x != "before" or any(y != "before" for y in fields[:k])]
                break
            i, n, fields = up, n + 1, fields[1:]
        if not fields:
            if n and self.goal and re.fullmatch(r"c(\.before)*|\(goal\.at\.\S+ c\)\.\S+", base):
                return f"(goal.at.{self.goal} c).{self.new_places[i]}", i
            return base + ".before" * n, i
        step, rest = fields[0], fields[1:]
        # every step on the way is a field of the whole
        base = re.sub(r"(\.before)+$", "", base)
        base = re.sub(r"^\(goal\.at\.\S+ c\)\.\S+$", "c", base)
        n = 0
        rest = [x.replace("-", "_") for x in rest]
        if step == "pre":
            step = "requires"
        if norm(step) in START:
            step = norm(step)
            return ".".join([base, step] + rest), None
        j = self.find_step(i, step)
        if j is None:
            there = [k for k, p in enumerate(self.places) if norm(p[2][0]) == norm(step)]
            j = there[0] if there else None
        if j is None:
            self.said.append(f"no step {step} at {self.places[i][0]}")
            return ".".join([base + ".before" * n, step] + rest), None
        new = self.places[j][2][1]
        if rest[:1] == ["taken"]:
            rest = ["false" if re.match(r"(after_loop|else)", norm(self.places[j][0])) else "true"] + rest[1:]
        rest = [dict(self.places[j][4]).get(r, r) for r in rest[:1]] + rest[1:]
        arm = self.arms[j]
        if arm:
            best = None
            for field, old, path in arm[2]:
                if norm(old) == norm(step) and rest[: len(path)] == [p for p in path] and (best is None or len(path) > len(best[1])):
                    best = (field, path)
            if best:
                return ".".join([base, arm[0], best[0]] + rest[len(best[1]) :]), None
        if norm(step) in self.loops:
            rest = ["invariant" if r == "inv" else r for r in rest[:1]] + rest[1:]
        clauses = self.clauses[j]
        if rest[:1] in (["auto"], ["new"]) and rest[1:2] in (["0"], ["1"]):
            k, at = 0, 1
            while at < len(rest) and rest[at] == "1":
                k, at = k + 1, at + 1
            given = self.params.get(self.places[j][3], [])
            if at < len(rest) and rest[at] == "0" and k < len(given):
                rest = [rest[0], given[k]] + rest[at + 1 :]
        fields = clauses["fields"] if clauses else []
        self.last_fields = fields if rest == ["ensures"] and len(fields) > 1 else None
        if fields and rest[:1] == ["ensures"]:
            if len(fields) == 1:
                rest = ["ensures", fields[0]] + rest[1:]
            else:
                k, at = 0, 1
                while at < len(rest) and rest[at] == "1" and k < len(fields) - 2:
                    k, at = k + 1, at + 1
                if at < len(rest) and rest[at] in ("0", "1"):
                    rest = ["ensures", fields[k + int(rest[at])]] + rest[at + 1 :]
        return ".".join([base, new] + rest), None


class Turner:
    def __init__(self, f, env, funs, renamed):
        self.f, self.env, self.funs, self.renamed = f, dict(env), funs, renamed
        # local names of what a call ensures
        self.local = {}

    def turn(self, text):
        """The new text, and the place if the whole of it is one."""
        out, i, whole = [], 0, None
        parts = 0
        while i < len(text):
            c = text[i]
            if c in " \n":
                out.append(c)
                i += 1
                continue
            m = re.compile(r"let (" + NAME + r") = ([^\n=]*?) in\b").match(text, i)
            if m:
                inner, place = self.turn(m.group(2))
                if place is None and re.fullmatch(r"c[\w.'₀-₉-]*\.ensures", inner) and self.f.last_fields:
                    self.local[m.group(1)] = self.f.last_fields
                if place is not None:
                    self.env[m.group(1)] = (place, inner)
                    i = m.end()
                    while i < len(text) and text[i] in " \n":
                        i += 1
                    continue
            if c == "(":
                j = self.match(text, i)
                inner, place = self.turn(text[i + 1 : j])
                fields, j = self.fields(text, j + 1)
                base = "(" + inner + ")"
                if place is not None and (re.fullmatch(r"[\w.'-]+", inner) or inner.startswith("(goal.at.")):
                    base = inner
                t, p = self.f.chain(place, base, fields) if place is not None else (base + "".join("." + x for x in fields), None)
                out.append(t)
                whole, parts, i = p, parts + 1, j
                continue
            m = re.compile(NAME).match(text, i)
            if m:
                name = m.group(0)
                fields, j = self.fields(text, m.end())
                if name in self.env and not (i and text[i - 1] == "."):
                    place, base = self.env[name]
                    t, p = self.f.chain(place, base, fields)
                    out.append(t)
                    whole, parts, i = p, parts + 1, j
                    continue
                if name in self.funs and self.funs[name] is not None:
                    # a helper that takes a place to a place, with its argument
                    k = j
                    while k < len(text) and text[k] == " ":
                        k += 1
                    arg_end = self.atom(text, k)
                    if arg_end > k:
                        # a place further out: its steps are fields of the argument, and as an argument it is the goal's own view of it
                        inner, _ = self.turn(text[k:arg_end])
                        inner = re.sub(r"^\((\S+)\)$", r"\1", inner)
                        root = re.sub(r"(\.before)+$", "", inner)
                        root = "c" if root.startswith("(goal.at.") else root
                        if self.f.goal and re.fullmatch(r"c(\.before)*|\(goal\.at\.\S+ c\)\.\S+", inner):
                            root = f"(goal.at.{self.f.goal} c).{self.f.new_places[self.funs[name]]}"
                        out.append(root)
                        whole, parts, i = self.funs[name], parts + 1, arg_end
                        continue
                if name in self.local and fields[:1] in (["0"], ["1"]):
                    fields = [self.local[name][int(fields[0])]] + fields[1:]
                out.append(self.renamed.get(name, name) + "".join("." + x for x in fields))
                whole, parts, i = None, parts + 1, j
                continue
            out.append(c)
            parts += 1
            whole = None
            i += 1
        return "".join(out), (whole if parts == 1 else None)

    @staticmethod
    def match(text, i):
        depth = 0
        for j in range(i, len(text)):
            depth += {"(": 1, ")": -1}.get(text[j], 0)
            if depth == 0:
                return j
        raise ValueError("parentheses")

    @staticmethod
    def fields(text, i):
        out = []
        r = re.compile(r"\.([A-Za-z0-9_][\w₀-₉'-]*)")
        while (m := r.match(text, i)):
            out.append(m.group(1))
            i = m.end()
        return out, i

    def atom(self, text, i):
        if i < len(text) and text[i] == "(":
            j = self.match(text, i) + 1
        else:
            m = re.compile(NAME).match(text, i)
            if not m:
                return i
            j = m.end()
        return self.fields(text, j)[1]


def split_tuple(text):
    """The two parts of a pair in parentheses, or None."""
    t = text.strip()
    if not t.startswith("(") or Turner.match(t, 0) != len(t) - 1:
        return None
    depth, inner = 0, t[1:-1]
    pairs = {"(": 1, ")": -1, "{": 1, "}": -1, "[": 1, "]": -1}
    for k, ch in enumerate(inner):
        depth += pairs.get(ch, 0)
        if ch == "," and depth == 0:
            rest = inner[k + 1 :].strip().rstrip(",").strip()
            return inner[:k].strip(), rest
    return None


def parts_of(text, n):
    """The n parts of a nested pair: (a, (b, c)) or (a, b, c)."""
    if n == 1:
        return [text.strip()]
    two = split_tuple(text)
    if two is None:
        return None
    first, rest = two
    more = parts_of(rest, n - 1) if n > 2 else [rest]
    if more is None:
        more = parts_of("(" + rest + ")", n - 1)
    return None if more is None else [first] + more


def lets_and_body(text):
    """`let .. in` at the front, and what stands behind."""
    i = 0
    while True:
        k = i + len(text[i:]) - len(text[i:].lstrip())
        if not text.startswith("let ", k):
            return text[:k], text[k:].strip()
        depth, lets, j = 0, 0, k
        while j < len(text):
            ch = text[j]
            depth += {"(": 1, ")": -1, "{": 1, "}": -1, "[": 1, "]": -1}.get(ch, 0)
            if depth == 0 and re.match(r"let\b", text[j:]) and (j == 0 or text[j - 1] in " \n("):
                lets += 1
            if depth == 0 and re.match(r"in\b", text[j:]) and text[j - 1] in " \n)":
                lets -= 1
                if lets == 0:
                    break
            j += 1
        else:
            return text[:k], text[k:].strip()
        i = j + 2


def convert(path, f, crate, fun):
    text = open(path, encoding="utf-8").read()
    blocks = re.split(r"\n\n+", text.strip("\n"))
    head, uses, decls = [], [], []
    for b in blocks:
        lines = b.split("\n")
        if lines[0].startswith(("use ", "--")) and any(l.startswith("use ") for l in lines):
            for l in lines:
                (head if l.startswith("--") else uses).append(l)
        else:
            decls.append(b)
    uses = [u for u in uses if not re.search(r"\.(Statement\.\{statement\}|Tie as tie)$", u)]
    goals_path = "Rattle." + crate + ".proofs." + fun.replace("/", ".") + "."
    parsed = []
    for b in decls:
        lines = b.split("\n")
        says = []
        while lines and lines[0].startswith("--"):
            says.append(lines.pop(0))
        m = re.match(r"(?:abbrev |unfoldable |pub )*(" + NAME + r") :", lines[0]) if lines else None
        if not m:
            f.said.append("cannot read: " + b[:60])
            parsed.append((says, None, lines, None))
            continue
        parsed.append((says, m.group(1), lines, lines[0].startswith("abbrev")))
    invariants, answers, imports, renamed, funs, shared = [], [], [], {}, {}, []
    goals_used = False
    # the names of helpers first
    for says, name, lines, abbrev in parsed:
        if name is None:
            continue
        sig = " ".join(l.strip() for l in lines)
        is_goal = re.match(r"(?:pub |abbrev )*" + NAME + r" : tie\.(Need-|invariant-|decreases-)", sig)
        if not is_goal and not name.endswith("-spec"):
            renamed[name] = name.replace("-", "_")
            m = re.search(r": tie\.(" + NAME + r")((?: invariant-\S+| decreases-\S+)*) → tie\.(" + NAME + r")((?: invariant-\S+| decreases-\S+)*)\s*(?:unfolding|" + re.escape(name) + ")", sig)
            funs[name] = f.index.get(norm(m.group(3))) if m else None
    for says, name, lines, abbrev in parsed:
        if name is None:
            answers.append("\n".join(says + lines))
            continue
        if name.endswith("-spec") or name.endswith("_spec"):
            whole = " ".join(l.strip() for l in lines)
            for new, place, term in f.inside(whole.split("tie.spec", 1)[-1]):
                f.goal = new
                right, _ = Turner(f, {"c": (place, "c")}, funs, renamed).turn(term)
                f.goal = None
                answers.append("\n".join([f"pub {new} : goal.{new}"] + [l for l in lines if l.startswith("unfolding")] + [f"{new} c = {right}"]))
            continue
        body_at = next(k for k, l in enumerate(lines) if k and re.match(re.escape(name) + r"(\s|=|$)", l))
        signature = "\n".join(lines[:body_at])
        unfolding = [l for l in lines[1:body_at] if l.startswith("unfolding")]
        body = "\n".join(lines[body_at:])
        m = re.match(r"(?:abbrev )?" + NAME + r" : tie\.(Need-|invariant-|decreases-)(" + NAME + r")", lines[0])
        if m and m.group(1) != "Need-":
            new, params, changed = f.loops[norm(m.group(2))]
            left, right = body.split("=", 1)
            args = left.split()[1:]
            names = dict()
            order = [(p, c) for p, c in zip(params, changed)]
            at = 0
            for p, c in order:
                if at < len(args):
                    names[args[at]] = ("l.initial." if c else "l.") + p
                at += 1
            for p, c in order:
                if c:
                    if at < len(args):
                        names[args[at]] = "l." + p
                    at += 1
            if at != len(args):
                # a temporary value of the code stands among them: each goes by its own name
                names = dict()
                for a in args:
                    p = a.rstrip("₀")
                    if p in params:
                        names[a] = ("l.initial." if a != p else "l.") + p
            right = re.sub(r"(?<![\w.'₀-₉-])(" + NAME + r")(?![\w'₀-₉]|-\w)", lambda t: names.get(t.group(1), t.group(1)), right)
            invariants.append("\n".join(says + ["abbrev pub %s%s : goal.%s%s" % (m.group(1), new, m.group(1), new)] + unfolding + ["%s%s l =%s" % (m.group(1), new, right)]))
            continue
        if m:
            old = norm(m.group(2))
            for later, earlier in (("overflow_", ""), ("slice_bounds_", "part_")):
                if old not in f.needs and old.startswith(later):
                    old = earlier + old[len(later) :]
            if old not in f.needs:
                f.said.append("no goal " + m.group(2))
                answers.append("\n".join("-- LEFT " + l for l in lines))
                continue
            new = f.needs[old]
            renamed[name] = new
            place = f.index[f.need_place[old]]
            left, right = body.split("=", 1)
            args = left.split()[1:]
            f.goal = new
            t = Turner(f, {args[0]: (place, "c")} if args else {}, funs, renamed)
            right, _ = t.turn(right)
            f.goal = None
            # a test of `!x` says of x what it says
            right = re.sub(r"not-(?:true|false) _ (c\S*?\.if-not-[^\s()]+?)-raw\b", r"\1", right)
            goals_used = True
            labels = f.asked.get(old)
            if labels and len(labels) > 1:
                lets, rest = lets_and_body(right)
                parts = parts_of(rest, len(labels))
                rewritten = re.fullmatch(r"(rw (?:\([^()]*(?:\([^()]*\)[^()]*)*\)|\S+)) (c\S*\.ensures)", rest)
                if parts is None and rewritten:
                    parts = [f"{rewritten.group(1)} {rewritten.group(2)}.{label}" for label in labels]
                if parts is None:
                    f.said.append(f"{new}: not a pair of {len(labels)}")
                    fields = []
                    for k, label in enumerate(labels):
                        fields.append(f"{label} = ({rest})" + (".1" * k + ("" if k == len(labels) - 1 else ".0")))
                    answers.append("\n".join(says + [f"pub {new} : goal.{new}"] + unfolding + [f"{new} c =\n    {lets}record {{ " + "; ".join(fields) + " }"]))
                else:
                    for label, part in zip(labels, parts):
                        if part == "search rules":
                            continue
                        answers.append("\n".join(says + [f"pub {new}-clause-{label} : goal.{new}-clause-{label}"] + unfolding + [f"{new}-clause-{label} c =\n    {lets}{part}"]))
            elif right.strip() != "search rules":
                answers.append("\n".join(says + [f"pub {new} : goal.{new}"] + unfolding + [f"{new} c ={right}"]))
            continue
        # a helper
        if funs.get(name) is not None:
            continue
        env = {}
        sig = signature
        binders = []
        for b in re.finditer(r"\(((?:" + NAME + r" )+): tie\.(" + NAME + r")((?: invariant-\S+?| decreases-\S+?)*)\)", sig):
            i = f.index.get(norm(b.group(2)))
            for v in b.group(1).split():
                env[v] = (i, v)
        arrow = re.match(r"(?:abbrev |pub )*" + NAME + r" : tie\.(" + NAME + r")", sig)
        left, right = body.split("=", 1)
        args = left.split()[1:]
        if arrow and args:
            env[args[0]] = (f.index.get(norm(arrow.group(1))), args[0])
        if any(v[0] is None for v in env.values()):
            f.said.append(f"{name}: a place is not known")
            env = {k: v for k, v in env.items() if v[0] is not None}

        def place_name(b):
            i = f.index.get(norm(b.group(1)))
            if i is None:
                f.said.append("no place " + b.group(1))
                return b.group(0)
            if f.new_places[i] not in imports:
                imports.append(f.new_places[i])
            return f.new_places[i]

        sig_t = re.sub(r"tie\.(" + NAME + r")((?: invariant-[^\s)]+| decreases-[^\s)]+)*)", place_name, sig)
        t = Turner(f, env, funs, renamed)
        first, *others = sig_t.split(":", 1)
        sig_new = first + ":" + t.turn(others[0])[0] if others else sig_t
        right, _ = Turner(f, env, funs, renamed).turn(right)
        sig_new = re.sub(r"^((?:abbrev |pub |unfoldable )*)(" + NAME + r")", lambda q: q.group(1) + renamed.get(q.group(2), q.group(2)), sig_new)
        if "tie." not in sig:
            shared.append((renamed.get(name, name), "\n".join(says + [sig_new, " ".join([renamed.get(name, name)] + args) + " =" + right])))
        answers.append("\n".join(says + [sig_new, " ".join([renamed.get(name, name)] + args) + " =" + right]))
    folder = os.path.dirname(path)
    if invariants:
        said = "\n".join(invariants)
        invariants = [text for name, text in shared if re.search(r"(?<![\w.'-])" + re.escape(name) + r"(?![\w'-])", said)] + invariants
        with open(os.path.join(folder, "Invariants.antt"), "w", encoding="utf-8") as o:
            o.write("\n".join(uses + [f"use {goals_path}Given as goal", "", "\n\n".join(invariants), ""]))
    if answers:
        lines = head + uses
        if imports:
            lines.append(f"use {goals_path}Goals.{{{', '.join(imports)}}}")
        lines.append(f"use {goals_path}Goals as goal")
        with open(os.path.join(folder, "Answers.antt"), "w", encoding="utf-8") as o:
            o.write("\n".join(lines + ["", "\n\n".join(answers), ""]))
    os.remove(path)
    for s in f.said:
        print(f"look: {fun}: {s}")


def main():
    names = json.load(open(sys.argv[1], encoding="utf-8"))
    crate, wanted = sys.argv[2], sys.argv[3:]
    proofs = os.path.join(os.environ.get("TREE", TOP), "crates", crate, "proofs")
    for folder, _, files in sorted(os.walk(proofs)):
        if "Proof.antt" not in files:
            continue
        fun = os.path.relpath(folder, proofs)
        if wanted and fun not in wanted:
            continue
        key = f"Rattle-{crate}-proofs." + fun.replace("/", ".") + ".Lts"
        if key not in names:
            print(f"look: {fun}: no names")
            continue
        convert(os.path.join(folder, "Proof.antt"), Function(names[key]), crate, fun)


if __name__ == "__main__":
    main()
