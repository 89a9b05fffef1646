#!/usr/bin/env python3
"""Turns a proof that walks the code by hand (proofs/F/Proof.antt, made from a printed skeleton) into Invariants.antt and Answers.antt.

usage: tools/answers.py CRATE [F..]      at the top of the repository, where the crates below CRATE prove

`rt check --generated OUT --old-names` says each goal's and each step's old and new name; the rest is text. An answer that is `search rules` alone goes, since
the check finds it. What could not be turned is printed in lines that begin 'left:'.
"""
import json
import os
import re
import subprocess
import sys
import tempfile

NAME = r"[^\s(){}.;,:@\"«»]+"
SIG = re.compile(rf"^(?:pub |abbrev |unfoldable )*({NAME})(?: \{{[^}}]*\}})?\s*:(?:\s|$)")


def norm(s):
    return re.sub(r"^(Need-)?((overflow|nonzero)[-_])?", "", s).replace("-", "_").lower()


def generated(crate):
    out = tempfile.mkdtemp()
    where = os.path.join("crates", crate)
    r = subprocess.run(["rt", "check", "--generated", out, "--old-names"], cwd=where, capture_output=True, text=True)
    p = os.path.join(out, "names.json")
    if not os.path.exists(p):
        sys.exit("no names: " + (r.stdout + r.stderr)[-2000:])
    with open(p) as f:
        return json.load(f)


class Walk:
    """The places of a function, by their old names."""

    def __init__(self, x):
        self.x = x
        self.places = {}
        self.order = []
        self.new_place = {}
        for i, (name, parent, step, callee, renames) in enumerate(x["places"]):
            arms = x["arms"][i] if i < len(x["arms"]) else None
            if name not in self.places:
                self.places[name] = (parent, step, callee, renames, arms, i)
            self.order.append(name)
            self.new_place.setdefault(norm(name), x["places_by_name"][i])
        self.needs = []
        for (old, new), (at, _) in zip(x["needs"], x["asked_at"]):
            self.needs.append((old, new, at))
        typed = x.get("typed") or []
        self.typed = {}
        for i, rows in enumerate(typed):
            for var, step in rows:
                self.typed[step] = var
        self.by_step = {}
        for name, (parent, step, callee, renames, arms, i) in self.places.items():
            self.by_step.setdefault(norm(step[0]), set()).add((step[1], name))

    def chain(self, place):
        while place is not None:
            yield place
            place = self.places[place][0]

    def find_place(self, text):
        for name in self.places:
            if norm(name) == norm(text):
                return name
        return None

    def up(self, place, n):
        for _ in range(n):
            if place is None or self.places[place][0] is None:
                return place
            place = self.places[place][0]
        return place

    def params(self, callee):
        return (self.x.get("params") or {}).get(callee)

    def step(self, place, seg, rest):
        """The new path for old step `seg` and the fields behind it, seen from `place` (None: anywhere)."""
        names = list(self.chain(place)) if place else list(self.places)
        seg = re.sub(r"_lem$", "", seg)
        for name in names:
            parent, step, callee, renames, arms, i = self.places[name]
            if arms:
                for field, old, path in arms[2]:
                    if norm(old) == norm(seg) and [norm(r) for r in rest[:len(path)]] == [norm(p) for p in path]:
                        return [arms[0], field] + rest[len(path):]
            if norm(step[0]) == norm(seg):
                if norm(seg) in self.typed and rest and rest[0] == "given":
                    continue
                rest = list(rest)
                if rest:
                    for new_field, old_field in [(r[1], r[0]) for r in renames if isinstance(r, list) and len(r) == 2]:
                        if rest[0] == old_field:
                            rest[0] = new_field
                            break
                    rest[0] = {"type-inv": "type_inv", "same-length": "same_length"}.get(rest[0], rest[0])
                    params = self.params(callee) if callee else None
                    if rest[0] in ("new", "auto") and params and len(rest) > 1:
                        k = 1
                        n = 0
                        while k < len(rest) and rest[k] == "1":
                            n += 1
                            k += 1
                        if k < len(rest) and rest[k] == "0" and n < len(params):
                            rest = [rest[0], params[n]] + rest[k + 1:]
                return [step[1]] + rest
        if norm(seg) in {norm(k) for k in self.typed} and rest and rest[0] == "given":
            var = next(v for k, v in self.typed.items() if norm(k) == norm(seg))
            return ["type_inv", var] + rest[1:]
        return None


PLACE = rf"{NAME}(?:\.before)*"
TOKEN = re.compile(r"[^\s(){};,@\"«»]+")


class Turner:
    """Turns the bodies of one function's proof. A view of a place holds every step before it, so each path to a place becomes the variable it begins with."""

    def __init__(self, walk, left):
        self.walk = walk
        self.left = left
        self.accessors = {}
        self.helpers = {}
        self.made = {}
        self.extra = []

    def place_of(self, path, env):
        parts = path.split(".")
        if parts[0] not in env:
            return None
        return self.walk.up(env[parts[0]], len(parts) - 1)

    def no_accessors(self, text, env):
        if not self.accessors:
            return text
        names = "|".join(sorted(map(re.escape, self.accessors), key=len, reverse=True))
        pat = re.compile(rf"\((?:{names}) {PLACE}\)|(?<==) (?:{names}) {PLACE}(?= in\b)")

        def one(m):
            w = m[0].strip().strip("()").split(" ")
            place = self.place_of(w[1], env)
            n = 0
            for q in self.walk.chain(place) if place else []:
                if q == self.accessors[w[0]]:
                    return (" " if m[0].startswith(" ") else "") + w[1] + ".before" * n
                n += 1
            self.left.append(f"accessor {m[0]} from {place}")
            return m[0]
        for _ in range(5):
            new = pat.sub(one, text)
            if new == text:
                return new
            text = new
        return text

    def no_lets(self, text, env):
        while True:
            text = self.no_accessors(text, env)
            m = None
            for m2 in re.finditer(rf"\blet ({NAME}) = ({PLACE}) in\b[ ]?", text):
                if m2[2].split(".")[0] in env:
                    m = m2
                    break
            if not m:
                return text
            v, path = m[1], m[2]

            def one(k):
                parts = k[0].split(".")
                if parts[0] == v:
                    return ".".join([path] + parts[1:])
                return k[0]
            head, tail = text[:m.start()], text[m.end():]
            if tail.startswith("\n") and not head.rsplit("\n", 1)[-1].strip():
                head = head.rstrip(" ")
                tail = tail[1:]
            text = head + TOKEN.sub(one, tail)

    def path(self, token, env):
        parts = token.split(".")
        if parts[0] not in env or len(parts) < 2:
            return token
        n = 0
        while n + 1 < len(parts) and parts[n + 1] == "before":
            n += 1
        rest = parts[n + 1:]
        if not rest:
            return parts[0]
        if rest[0] == "pre":
            rest[0] = "requires"
        if rest[0] in ("args", "requires", "ranges", "well_formed"):
            return ".".join([parts[0]] + rest)
        place = env[parts[0]]
        at = self.walk.up(place, n)
        new = self.walk.step(at, rest[0], rest[1:]) or self.walk.step(place, rest[0], rest[1:]) or self.walk.step(None, rest[0], rest[1:])
        if new is None:
            self.left.append(f"step {token}")
            return token
        return ".".join([parts[0]] + new)

    def body(self, text, env, view):
        """`env`: for each variable that is a place, its old name; `view`: the old name of the place whose view it is now."""
        text = self.no_lets(text, env)
        out, pos = [], 0
        tokens = list(TOKEN.finditer(text))
        k = 0
        skip_to = -1
        for m in tokens:
            if m.start() < skip_to:
                continue
            out.append(text[pos:m.start()])
            t = m[0]
            if t in self.helpers and not re.match(r"(?:pub |abbrev |unfoldable )*$", text[:m.start()]):
                indexes = self.helpers[t]["places"]
                args, end = arguments(text, m.end(), max(indexes) + 1)
                if len(args) > max(indexes):
                    roots = [args[i].strip().strip("()").split(".")[0] for i in indexes]
                    if all(r in env for r in roots):
                        name = self.instance(t, view[roots[0]])
                        turned = [roots[indexes.index(i)] if i in indexes else self.body(a, env, view) for i, a in enumerate(args)]
                        out.append(name + " " + " ".join(turned))
                        pos = end
                        skip_to = end
                        continue
                self.left.append(f"helper {t} in {text[m.start():m.start() + 60]!r}")
            elif t.startswith("."):
                pass
            else:
                t = self.path(t, env)
            out.append(t)
            pos = m.end()
        out.append(text[pos:])
        return "".join(out)

    def instance(self, name, view):
        if (name, view) in self.made:
            return self.made[(name, view)]
        n = sum(1 for k in self.made if k[0] == name)
        new = name if n == 0 else f"{name}_{n + 1}"
        self.made[(name, view)] = new
        h = self.helpers[name]
        goal = "goal." + self.walk.new_place[norm(view)]
        sig = re.sub(rf"\b(?:tie|lts)\.([A-Z][^\s().→]*)(?:\s+(?:invariant|decreases)-[^\s()→]+)*", goal, h["sig"])
        env = h["env"]
        views = {v: view for v in env}
        sig = self.body(sig, env, views)
        body = self.body(h["body"], env, views)
        if new != name:
            sig = re.sub(rf"^((?:pub |abbrev |unfoldable )*){re.escape(name)}(?=[\s:])", lambda m: m[1] + new, sig)
            body = re.sub(rf"(?m)^{re.escape(name)}(?=\s)", new, body)
        self.extra.append("\n".join(h["comment"] + [sig] + h["unf"] + [body]))
        return new


def arguments(text, pos, n):
    args = []
    while len(args) < n:
        m = re.match(r"\s+", text[pos:])
        start = pos + (m.end() if m else 0)
        if start >= len(text):
            break
        if text[start] == "(":
            deep, j = 0, start
            while j < len(text):
                deep += (text[j] == "(") - (text[j] == ")")
                j += 1
                if not deep:
                    break
            m = re.match(r"[^\s(){};,]*", text[j:])
            j += m.end()
            args.append(text[start:j])
            pos = j
        else:
            m = TOKEN.match(text, start)
            if not m:
                break
            args.append(m[0])
            pos = m.end()
    return args, pos


def blocks(text):
    """The header's lines, the use lines, and the blocks that follow: each with the comment above it."""
    lines = text.split("\n")
    i = 0
    head = []
    while i < len(lines) and (lines[i].startswith("--") or not lines[i].strip()):
        head.append(lines[i])
        i += 1
    uses = []
    while i < len(lines) and (lines[i].startswith("use ") or not lines[i].strip()):
        if lines[i].strip():
            uses.append(lines[i])
        i += 1
    found = []
    comment = []
    cur = None
    for line in lines[i:]:
        if line.startswith("--"):
            if cur:
                found.append(cur)
                cur = None
            comment.append(line)
        elif SIG.match(line) and not line.startswith(" "):
            if cur:
                found.append(cur)
            cur = (comment, [line])
            comment = []
        elif line.startswith("module ") or line.startswith("use ") or line.startswith("open "):
            if cur:
                found.append(cur)
            cur = (comment, [line])
            comment = []
        elif cur is not None:
            cur[1].append(line)
    if cur:
        found.append(cur)
    return head, uses, [(c, "\n".join(b).rstrip()) for c, b in found]


def split_signature(block):
    """name, signature text, unfolding lines, definition text."""
    lines = block.split("\n")
    name = SIG.match(lines[0])[1]
    k = 1
    while k < len(lines) and lines[k].startswith(" ") or k < len(lines) and not lines[k].strip():
        k += 1
    sig = lines[:k]
    unf = []
    while k < len(lines) and lines[k].startswith("unfolding"):
        unf.append(lines[k])
        k += 1
        while k < len(lines) and lines[k].startswith(" "):
            unf[-1] += "\n" + lines[k]
            k += 1
    return name, "\n".join(sig), unf, "\n".join(lines[k:])


def loop_for(walk, label):
    loops = walk.x["loops"]
    for i, ((old, new), live) in enumerate(loops):
        if norm(old) == norm(label):
            return i, new, live
    return None


def invariant(walk, name, sig, unf, body, left):
    kind = "invariant" if "invariant-" in sig.split(":")[1] else "decreases"
    label = re.search(rf"(?:invariant|decreases)-({NAME})", sig.split(":", 1)[1])[1]
    it = loop_for(walk, label)
    if not it:
        left.append(f"loop {label} of {name}")
        return None
    i, new, live = it
    changed = walk.x["changed"][i]
    m = re.match(rf"{re.escape(name)}((?:\s+{NAME})*)\s*=", body)
    if not m:
        left.append(f"no clause of {name}")
        return None
    params = m[1].split()
    want = [f"l.initial.{v}" if c else f"l.{v}" for v, c in zip(live, changed)] + [f"l.{v}" for v, c in zip(live, changed) if c]
    if len(params) != len(want):
        left.append(f"{name}: {len(params)} variables, {len(want)} wanted: {params} {want}")
    table = dict(zip(params, want))
    rest = body[m.end():]

    def one(t):
        parts = t[0].split(".")
        if parts[0] in table:
            return ".".join([table[parts[0]]] + parts[1:])
        return t[0]
    rest = TOKEN.sub(one, rest)
    goal = f"{kind}-{new}"
    text = f"abbrev pub {goal} : goal.{goal}\n" + "".join(u + "\n" for u in unf) + f"{goal} l =" + rest
    return text


def convert(crate, f, walk, path):
    left = []
    with open(path, encoding="utf-8") as h:
        head, uses, found = blocks(h.read())
    keep = []
    for u in uses:
        if re.search(r"\.(Statement|Tie|Reads|Lts|Kinds)(\.| as |$)", u):
            continue
        keep.append(u)
    inv, ans = [], []
    needs = list(walk.needs)
    done = set()
    turner = Turner(walk, left)
    for comment, block in found:
        if SIG.match(block):
            note_helper(turner, comment, block)
    for comment, block in found:
        if not SIG.match(block):
            ans.append("\n".join(comment + [block]))
            left.append("block " + block.split("\n")[0])
            continue
        name, sig, unf, body = split_signature(block)
        what = sig.split(":", 1)[1].strip() if ":" in sig else ""
        if name.endswith("-spec") or name.endswith("_spec") or "statement M" in sig:
            continue
        m = re.match(r"tie\.(invariant|decreases)-", what)
        if m:
            text = invariant(walk, name, sig, unf, body, left)
            if text:
                inv.append("\n".join(comment + [text]))
            continue
        m = re.match(r"(?:\(\w+ : ℕ\) → )?tie\.Need-([^\s]+)", what)
        if m:
            old = m[1]
            row = [r for r in needs if norm(r[0]) == norm(old)]
            rhs = body.split("=", 1)[1].strip() if "=" in body else body
            simple = rhs == "search rules"
            if not row:
                if not simple:
                    left.append(f"goal {name} ({old}): {rhs[:80]}")
                    ans.append("\n".join(["-- left: " + old] + ["-- " + l for l in block.split("\n")]))
                continue
            _, new, at = row[0]
            if new in done:
                left.append(f"goal {new} twice")
                continue
            done.add(new)
            if simple and not unf:
                continue
            lhs = body.split("=", 1)[0].split()[1:]
            v = lhs[0] if lhs else "c"
            rest = "=" + body.split("=", 1)[1]
            if "κs" in lhs:
                lhs.remove("κs")
            rest = turner.body(rest, {v: at}, {v: at})
            ans += turner.extra
            turner.extra = []
            if "κs" in rest:
                left.append(f"{new} speaks of κs")
            ans.append("\n".join(comment + [f"pub {new} : goal.{new}"] + unf + [f"{new} {' '.join(lhs)} {rest}"]))
            continue
        if (re.search(r"\b(?:tie|lts)\.[A-Z]", sig)):
            continue
        ans.append("\n".join(comment + [sig] + unf + [body]))
    folder = os.path.dirname(path)
    module = f"Rattle.{crate}.proofs.{f}"
    top = "\n".join(h for h in head if h.strip())
    if inv:
        write(os.path.join(folder, "Invariants.antt"), top, keep + [f"use {module}.Given as goal"], inv)
    if ans:
        write(os.path.join(folder, "Answers.antt"), top, keep + [f"use {module}.Goals as goal"], ans)
    os.remove(path)
    for l in left:
        print(f"left: {crate}::{f}: {l}")


def note_helper(turner, comment, block):
    """A definition over places: an accessor goes; another is made anew for each view that it is used at."""
    name, sig, unf, body = split_signature(block)
    what = sig.split(":", 1)[1].strip() if ":" in sig else ""
    if re.match(r"(?:\(\w+ : ℕ\) → )?(?:tie|lts)\.(Need|invariant|decreases)", what) or "statement M" in sig:
        return
    plain = re.fullmatch(r"(?:tie|lts)\.([A-Z][^\s()→]*)(?:\s+(?:invariant|decreases)-[^\s()→]+)*\s*→\s*(?:tie|lts)\.([A-Z][^\s()→]*)(?:\s+(?:invariant|decreases)-[^\s()→]+)*", what)
    m = re.fullmatch(rf"{re.escape(name)} ({NAME}) =\s*\1(?:\.before)*\s*", body)
    if plain:
        turner.accessors[name] = turner.walk.find_place(plain[2])
        return
    places = re.findall(r"\b(?:tie|lts)\.([A-Z][^\s().→]*)", sig)
    if not places:
        return
    m3 = re.match(rf"{re.escape(name)}((?:\s+{NAME})*)\s*=", body)
    bound = m3[1].split() if m3 else []
    order = []
    for m in re.finditer(rf"\(((?:{NAME} )+): ([^()]*(?:\([^()]*\)[^()]*)*)\)", what):
        for v in m[1].split():
            order.append((v, m[2]))
        if re.match(r"\s*→\s*(?!\()", what[m.end():]) or not re.match(r"\s*(→\s*)?\(", what[m.end():]):
            break
    first = re.match(r"(?:tie|lts)\.([A-Z][^\s().→]*)", what)
    env, indexes = {}, []
    if first:
        indexes = [0]
        if bound:
            env[bound[0]] = turner.walk.find_place(first[1])
    for i, (v, ty) in enumerate(order):
        q = re.match(r"(?:tie|lts)\.([A-Z][^\s().→]*)", ty)
        if q:
            indexes.append(i)
            env[v] = turner.walk.find_place(q[1])
            if i < len(bound):
                env[bound[i]] = env[v]
    if not indexes:
        turner.left.append("helper " + name)
        return
    turner.helpers[name] = {"sig": sig, "unf": unf, "body": body, "comment": comment, "env": env, "places": indexes}


def write(path, top, uses, parts):
    with open(path, "w", encoding="utf-8") as h:
        h.write((top + "\n" if top else "") + "\n".join(uses) + "\n\n" + "\n\n".join(parts) + "\n")


def main(argv):
    if not argv or argv[0].startswith("-"):
        sys.exit(__doc__)
    crate = argv[0]
    names = generated(crate)
    folder = os.path.join("crates", crate, "proofs")
    for dirpath, _, files in sorted(os.walk(folder)):
        if "Proof.antt" not in files:
            continue
        f = os.path.relpath(dirpath, folder)
        if argv[1:] and f not in argv[1:]:
            continue
        key = f"Rattle-{crate}-proofs.{f.replace('/', '.')}.Lts"
        if key not in names:
            print(f"left: {crate}::{f}: no names {key}; there are {[k for k in names if f.split('/')[-1] in k][:5]}")
            continue
        convert(crate, f.replace("/", "."), Walk(names[key]), os.path.join(dirpath, "Proof.antt"))


main(sys.argv[1:])
