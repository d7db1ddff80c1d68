#!/usr/bin/env python3
"""Respells the repository's own definitions and lemmas as Rattle's page on names has them.

usage: python3 tools/respell.py [TREE]             rewrites TREE (the repository itself) by tools/respelled.tsv; a second run changes nothing
       python3 tools/respell.py --clashes [TREE]   rewrites nothing, and says which names of the table fall together in TREE
       python3 tools/respell.py --make [TREE..]    writes the table anew from trees that are not respelled, and says the same of each
       python3 tools/respell.py --imports [TREE]   says which names that are imported from a module of the repository are not in it

A name is left alone in a file that imports it from elsewhere, where a module that Rattle makes has it (tie. and goal.), and where it proves a goal
of that name. In .rt and in comments only names with an inner capital change, and in Markdown only what stands in backticks.
"""

import os
import re
import sys

HERE = os.path.dirname(os.path.realpath(__file__))
TABLE = os.path.join(HERE, "respelled.tsv")
TOKEN = re.compile(r"[^\s(){}\[\],;.]+")
WORDS = "abbrev unfoldable opaque instance private pub".split()
NOT_NAMES = set("use let where unfolding module record data open mod in λ rw omega go tie".split())

# names of std's functions and constructors; those of the repository come from its files
STD = set("""append nil cons length take drop set map zero suc add mul sub div mod min max le lt eq eqb leb ltb ne replicate get_or reverse concat
some none true false not and or if pow pred even odd all any foldr foldl sum head tail zip filter range insert index get put bit iota T ones""".split())

# words that stand in names as plain English, whatever else has that name
PLAIN = set("a an all as at by do for from go in is it no of off on one out s so the then to up was with".split())
JOINING = {"and", "or", "if"}  # English but at a name's beginning

# chosen by hand, where the plain rule made two names fall together: old name, new name, with what
CHOSEN = {
    "byMasks": ("masks_layout", "as slots_layout"),
    "bySlots": ("slots_layout", "by_slots is a lemma"),
    "countedIf": ("count_if", "counted_if is a lemma"),
    "slotAligned": ("aligned_slot", "slot_aligned is a lemma"),
    "inPlace": ("fits_in_place", "in_place is a lemma"),
    "givenBack": ("give_back", "given_back is a lemma; the method that it mirrors is give_back"),
    "tooLarge": ("size_limit", "too_large is a lemma and a function of the source"),
    "arenaAfter": ("next_arena", "arena_after labels clauses that cite it"),
    "roomAfter": ("next_room", "room_after labels clauses that cite it"),
    "roomAfterBy": ("next_room_by", "as next_room"),
    "grants-aligned": ("grants_by_alignment", "grantsAligned, a call, is grants_aligned"),
    "grants-list": ("grants_by_list", "grantsList, a call, is grants_list"),
    "set-up": ("was_set_up", "setUp is set_up; a function of the source too"),
    "slot-bytes": ("slot_record-Bytes", "slotBytes is slot_bytes"),
    "plain-head": ("length-plain_head", "plainHead is plain_head"),
}
# left alone, and why
LEFT = {}


def read(path):
    with open(path, encoding="utf-8") as f:
        return f.read()


def files(root, ends):
    for folder, dirs, names in os.walk(os.path.join(root, "crates")):
        dirs[:] = sorted(d for d in dirs if d not in ("out", ".git"))
        for n in sorted(names):
            if n.endswith(ends):
                yield os.path.join(folder, n)


def crates(root):
    return set(os.listdir(os.path.join(root, "crates")))


def comment_at(line, mark):
    """Where a comment begins."""
    m = re.search(r"(^|\s)" + re.escape(mark) + r"(\s|$)", line)
    return len(line) if m is None else m.start() + len(m.group(1))


class Def:
    def __init__(self, name, kind, text, path, depth, flags):
        self.name, self.kind, self.text, self.path, self.depth, self.flags = name, kind, text, path, depth, flags


def statement(lines, i, indent):
    """The text of a definition's type: its line and the lines that go on, which stand deeper or close a bracket."""
    said = [lines[i]]
    for l in lines[i + 1:]:
        if not l.strip() or len(l) - len(l.lstrip()) <= indent or l.lstrip().startswith("--"):
            break
        if re.match(r"\s*(pub |abbrev |unfoldable |record |data |module )", l):
            break
        said.append(l)
        if len(said) > 12:
            break
    return " ".join(s.strip() for s in said)


def outer(text):
    """A text with what stands in brackets replaced."""
    depth, out = 0, []
    for c in text:
        if c in "({[":
            depth += 1
        elif c in ")}]":
            depth -= 1
        elif depth == 0:
            out.append(c)
    return "".join(out)


def result(text):
    """What comes after the last arrow of a type, at the top level."""
    t = outer(text)
    t = t.split(" : ", 1)[1] if " : " in t else t
    return t.split("→")[-1].strip()


def definitions(path):
    """The definitions of an .antt file: kind is value, type, field, constructor, module, or local (under a plain where)."""
    lines = [l[:comment_at(l, "--")] for l in read(path).split("\n")]
    found, stack = [], []  # (indent, what)
    for i, l in enumerate(lines):
        if not l.strip():
            continue
        indent = len(l) - len(l.lstrip())
        while stack and stack[-1][0] >= indent:
            stack.pop()
        body, flags = l.strip(), set()
        while body.split(" ", 1)[0] in WORDS and " " in body:
            w, body = body.split(" ", 1)
            flags.add(w)
        inside = stack[-1][1] if stack else "top"
        m = re.match(r"(record|data) (\S+)", body)
        if m and not re.match(r"record\s*\{", body):
            whole = statement(lines, i, indent)
            found.append(Def(m.group(2), "type", whole, path, len(stack), flags))
            stack.append((indent, m.group(1)))
            continue
        m = re.match(r"module (\S+)", body)
        if m:
            if m.group(1) != "_":
                found.append(Def(m.group(1), "module", body, path, len(stack), flags))
            stack.append((indent, "module"))
            continue
        if body == "where":
            stack.append((indent, "local"))
            continue
        if body.startswith("use "):
            continue
        m = re.match(r"([^\s(){}\[\],;.]+)((?:\s+(?:\{[^{}]*\}|\([^()]*\)))*)\s+:\s", body + " ")
        if m and m.group(1) not in NOT_NAMES and inside in ("top", "module", "record", "data", "local"):
            kind = {"top": "value", "module": "value", "record": "field", "data": "constructor", "local": "local"}[inside]
            if any(s[1] == "local" for s in stack):
                kind = "local"
            found.append(Def(m.group(1), kind, statement(lines, i, indent), path, len(stack), flags))
            if body.rstrip().endswith(" where"):
                stack.append((indent, "local"))
        elif body.rstrip().endswith(" where") or body == "where":
            stack.append((indent, "local"))
        else:
            m = re.match(r"([^\s(){}\[\],;.]+)\s", body)
    return found


USE = re.compile(r"(?m)^[ ]*((?:[\w-]+ )*)use ([^\s{};]+?)(?:\.\{([^}]*)\}| as (\S+)|)\s*;?\s*$")


def uses(text):
    """(path, names, alias) of each use: a name is a pair of the imported and the local one."""
    for m in USE.finditer(text):
        names = []
        for n in (m.group(3) or "").split(","):
            n = n.strip()
            if n:
                a = re.split(r"\s+as\s+", n)
                names.append((a[0], a[-1]))
        yield m.group(2), names, m.group(4)


def own_path(path, own):
    p = path.split(".")
    return len(p) > 2 and p[0] == "Rattle" and p[1] in own and p[2] in ("specs", "proofs") and p[2:] != ["proofs", "Prelude"]


def module_file(root, path):
    """The file of a module of the repository, or None."""
    parts = path.split(".")
    for k in range(len(parts), 2, -1):
        f = os.path.join(root, "crates", *parts[1:k]) + ".antt"
        if os.path.exists(f):
            return f
    return None


SENT = {}


def sent_on(root, file, own):
    """The names of elsewhere that a module sends on by pub use."""
    if file not in SENT:
        SENT[file] = set()
        text = read(file)
        for m in re.finditer(r"(?m)^\s*(?:\w+ )*pub (?:\w+ )*use .*$", text):
            SENT[file] |= foreign(root, m.group(0), own)
    return SENT[file]


def foreign(root, text, own):
    """The names that a text imports from elsewhere."""
    out = set()
    for path, names, alias in uses(text):
        both = {b for a, b in names} | {a for a, b in names}
        if not own_path(path, own):
            out |= both
        else:
            f = module_file(root, path)
            if f:
                out |= both & sent_on(root, f, own)
    return out


MADE = re.compile(r"^((add|sub|mul|div|mod|shl|shr)-\w+(-\d+)?|returns(-\d+)?|invariant-loop.*|decreases-loop.*|loop-.*|.*-requires(-\d+)?|Need-.*|After-.*|In-.*)$")


def made(d):
    """Whether a definition proves a goal of its own name."""
    if MADE.match(d.name) and d.path.endswith("Proof.antt"):
        return True
    m = re.search(r"\b(?:tie|goal)\.Need-(\S+)", result(d.text))
    return bool(m) and (m.group(1) == d.name or m.group(1).endswith("-" + d.name))


def snake(word):
    """fooBarBaz as foo_bar_baz."""
    return re.sub(r"(?<=[a-z0-9'])([A-Z])", lambda m: "_" + m.group(1).lower(), word)


def upper(word):
    return "".join(p[:1].upper() + p[1:] for p in re.split(r"[-_]", word))


def rust_names(root):
    out = set()
    for p in files(root, (".rt",)):
        out |= set(re.findall(r"\b(?:fn|const|static|struct|enum|trait|type|mod)\s+(\w+)", read(p)))
    return out


class Tree:
    def __init__(self, root):
        self.root = root
        self.own = crates(root)
        self.rust = rust_names(root)
        self.defs = {p: definitions(p) for p in files(root, (".antt",))}
        self.dashed = {n.replace("_", "-") for n in self.rust if "_" in n}
        self.made = {p: {d.name for d in ds if made(d)} for p, ds in self.defs.items()}
        self.foreign = {p: foreign(root, read(p), self.own) for p in files(root, (".antt", ".rt"))}

    def fields(self):
        return {d.name for ds in self.defs.values() for d in ds if d.kind == "field"}


def is_type(d):
    return d.kind == "type" or (d.kind == "value" and re.match(r"Type\b", result(d.text)))


def is_camel(n):
    return bool(re.match(r"[a-zα-ω][\w']*$", n)) and bool(re.search(r"[a-z0-9][A-Z]", n))


def make(trees):
    table, notes = {}, []
    known, functions = set(STD), set()
    for t in trees:
        known |= t.rust
        for p, ds in t.defs.items():
            for d in ds:
                if is_type(d) or d.kind == "constructor" and ("/specs/" in p or "-" not in d.name):
                    known.add(d.name)
                elif d.kind == "value" and (is_camel(d.name) or "/specs/" in p and "-" not in d.name):
                    known.add(d.name)
                    functions.add(d.name)
                elif d.kind == "value" and "-" not in d.name and "pub" in d.flags and d.flags & {"abbrev", "unfoldable"}:
                    known.add(d.name)
    all_foreign = set().union(*(f for t in trees for f in t.foreign.values()))
    kinds = {}
    everywhere_made = {n for t in trees for ns in t.made.values() for n in ns}
    for t in trees:
        for p, ds in t.defs.items():
            for d in ds:
                if d.kind == "module" or d.name in t.made[p] or d.name in everywhere_made:
                    continue
                kinds.setdefault(d.name, []).append((t, p, d))

    def part(w):
        return snake(w) if is_camel(w) else w

    lems, chosen = [], []
    functions = {CHOSEN.get(w, (snake(w),))[0] if is_camel(w) else w for w in functions}
    known = {snake(w) if is_camel(w) else w for w in known} - PLAIN

    def joined(parts):
        """The parts of a name, as long a known name as can be at a time: a dash between two known names, else _."""
        units = []
        while parts:
            for k in range(len(parts), 0, -1):
                if k == 1 or "_".join(parts[:k]) in known:
                    units.append("_".join(parts[:k]))
                    parts = parts[k:]
                    break
        new = units[0]
        for i, (a, b) in enumerate(zip(units, units[1:])):
            names = a in known and b in known and b not in JOINING and (i == 0 or a not in JOINING)
            new += ("-" if names else "_") + b
        return new

    for name, where in sorted(kinds.items()):
        new, folder_spec = name, False
        if any(is_type(d) for t, p, d in where):
            if not all(is_type(d) for t, p, d in where):
                notes.append("# left: %s, a type in one file and none in another" % name)
                if is_camel(name):
                    new = snake(name)
            elif re.search(r"[-_]", name) or is_camel(name):
                new = upper(name)
            elif re.match(r"[a-z]", name):
                notes.append("# left: the type %s, a plain word" % name)
        else:
            folder = None
            for t, p, d in where:
                if p.endswith("/Proof.antt") and re.match(r"statement\b", result(d.text)):
                    folder = os.path.basename(os.path.dirname(p))
            parts = [name] if name in all_foreign else name.split("-")
            if folder is not None and "-" in name and len(parts) > 1 and parts[-1] == "spec":
                new, folder_spec = folder + "_spec", True
            elif len(parts) > 1 and all(re.search(r"\w", w) for w in parts):
                new = joined([part(w) for w in parts])
            elif is_camel(name) and (name not in all_foreign):
                new = snake(name)
        if new in functions and new != name and not (folder_spec or is_camel(name)) and not any(is_type(d) for t, p, d in where):
            new += "_lem"
            lems.append("%s is %s, beside the function" % (name, new))
        if name in CHOSEN:
            if lems and lems[-1].startswith(name + " "):
                lems.pop()
            new = CHOSEN[name][0]
            chosen.append("%s is %s: %s" % ((name,) + CHOSEN[name]))
        if name in LEFT:
            continue
        if new != name:
            table[name] = new
    # names of modules in a file
    for t in trees:
        for p in t.defs:
            for path, names, alias in uses(read(p)):
                if alias and "-" in alias:
                    table[alias] = alias.replace("-", "_")
    # names in capitals that are bound within a definition
    for t in trees:
        for p in t.defs:
            for l in read(p).split("\n"):
                for w in TOKEN.findall(l[:comment_at(l, "--")]):
                    if is_camel(w) and "_" not in w and w not in table and w not in all_foreign and w not in LEFT:
                        table[w] = snake(w)
    return table, notes + lems + chosen


def load():
    table = {}
    for l in read(TABLE).split("\n"):
        if l and not l.startswith("#"):
            a, b = l.split("\t")
            table[a] = b
    return table


class Writer:
    """Rewrites one file's text by the table."""

    def __init__(self, table, tree):
        self.table, self.tree = table, tree
        self.fields = tree.fields()
        camel = [k for k in table if re.search(r"[a-z0-9][A-Z]", k)]
        self.camel = re.compile(r"(?<![\w'.-])(" + "|".join(sorted(map(re.escape, camel), key=len, reverse=True)) + r")(?![\w'-])") if camel else None
        self.said = set()

    def comment(self, text):
        if self.camel:
            text = self.camel.sub(lambda m: self.table[m.group(1)], text)
        return re.sub(r"`([^`]*)`", lambda m: "`" + self.plain(m.group(1)) + "`", text)

    def plain(self, text):
        return TOKEN.sub(lambda m: self.table.get(m.group(0), m.group(0)), text)

    def dotted(self, line, m, skip, aliases, only):
        """A token behind a dot: the name of a module's definition, or a record's field."""
        word = m.group(0)
        head = re.search(r"([^\s(){}\[\],;]*)\.$", line[:m.start()])
        path = head.group(1).split(".") if head else [""]
        root = path[0]
        if root in ("tie", "goal"):
            return word
        if root in aliases:
            return self.table[word] if aliases[root] and word not in only else word
        if word not in self.fields and not is_camel(word):
            return word
        if word in self.tree.dashed and word in self.fields:
            self.said.add("a field and a made name: %s in %s" % (word, line.strip()))
            if path[-1] in ("before", "c", "s", "u"):
                return word
        return self.table[word]

    def code(self, line, skip, aliases, made_here, capitals_only=False):
        def turn(m):
            w = m.group(0)
            if w not in self.table:
                return w
            if line[:m.start()].endswith("."):
                # the dot of a λ stands before a blank
                return self.dotted(line, m, skip, aliases, set())
            if w in skip or w in made_here:
                return w
            if capitals_only and not re.search(r"[a-z0-9][A-Z]", w) and "-" not in w:
                return w
            return self.table[w]
        return TOKEN.sub(turn, line)

    def use(self, line, skip):
        m = re.match(r"(.*?\buse )([^\s{};]+?)(\.\{)([^}]*)(\}.*)$", line)
        if not m:
            m = re.match(r"(.*\buse \S+ as )(\S+?)(;?)$", line)
            return m.group(1) + self.table.get(m.group(2), m.group(2)) + m.group(3) if m else line
        if not own_path(m.group(2), self.tree.own):
            return line
        def turn(n):
            return TOKEN.sub(lambda k: self.table.get(k.group(0), k.group(0)) if k.group(0) != "as" else "as", n)
        return m.group(1) + m.group(2) + m.group(3) + turn(m.group(4)) + m.group(5)

    def aliases(self, text):
        out = {}
        for path, names, alias in uses(text):
            if alias:
                p = path.split(".")
                made_module = p[-1] in ("Tie", "TheLaws", "Statement", "Code", "Symbol", "Met", "TheVariants") or "contracts" in p or "declared" in p
                out[alias] = own_path(path, self.tree.own) and not made_module
        return out

    def skip(self, path):
        return self.tree.foreign.get(path, set()), self.tree.made.get(path, set())

    def text(self, path, text):
        mark = "//" if path.endswith(".rt") else "--"
        foreign_here, made_here = self.skip(path)
        aliases = self.aliases(text)
        out = []
        for l in text.split("\n"):
            if re.match(r"\s*(?:[\w-]+ )*use \S+", l) and not l.lstrip().startswith(mark):
                out.append(self.use(l, foreign_here))
                continue
            k = comment_at(l, mark)
            out.append(self.code(l[:k], foreign_here, aliases, made_here, path.endswith(".rt")) + self.comment(l[k:]))
        return "\n".join(out)

    def edit(self, path, text):
        m = re.search(r"(?m)^file: (\S+)", text)
        target = os.path.join(os.path.dirname(os.path.dirname(path)), m.group(1)) if m else None
        whole = read(target) if target and os.path.exists(target) else ""
        foreign_here, made_here = self.skip(target)
        aliases = self.aliases(whole)
        out = []
        for l in text.split("\n"):
            m = re.match(r"(old: |new: )(.*)$", l)
            if m:
                k = m.group(2)
                if re.match(r"\s*(?:[\w-]+ )*use \S+", k):
                    out.append(m.group(1) + self.use(k, foreign_here))
                else:
                    c = comment_at(k, "//" if target.endswith(".rt") else "--")
                    out.append(m.group(1) + self.code(k[:c], foreign_here, aliases, made_here, target.endswith(".rt")) + self.comment(k[c:]))
            elif l.startswith("#"):
                out.append(self.comment(l))
            else:
                out.append(l)
        return "\n".join(out)


def clashes(table, tree, say):
    """Names of a file that fall together: those that stand alone, and those behind a dot."""
    w = Writer(table, tree)
    for p in files(tree.root, (".antt", ".rt")):
        rt = p.endswith(".rt")
        text = read(p)
        short = os.path.relpath(p, tree.root)
        foreign_here, made_here = w.skip(p)
        skip = foreign_here | made_here
        alone, behind = set(), set()
        bound = set()
        for l in text.split("\n"):
            code = l[:comment_at(l, "//" if rt else "--")]
            if re.match(r"\s*(?:[\w-]+ )*use \S+", code):
                code = re.sub(r"^.*?\.\{|^[^{]*$", "", code)
            elif rt:
                if re.match(r"\s*(requires|ensures|invariant|decreases|prove)\b", code) or re.match(r"\s*ghost\b", code):
                    pass
                else:
                    bound |= set(re.findall(r"\b([a-z_]\w*)\s*:(?!:)", code)) | set(re.findall(r"\blet (?:mut )?(\w+)", code))
                    bound |= set(re.findall(r"\b(?:const|static|enum|struct|type)\s+(\w+)", code))
                    bound |= {n for g in re.findall(r"\bfor (\w+) in|\|([\w, ]+)\|", code) for h in g for n in re.findall(r"\w+", h)}
                    continue
            for m in TOKEN.finditer(code):
                (behind if code[:m.start()].endswith(".") else alone).add(m.group(0))
        for what, names in (("", alone), (" behind a dot", behind)):
            new = {}
            for t in names:
                new.setdefault(table[t] if t in table and t not in skip else t, []).append(t)
            for n, olds in sorted(new.items()):
                if len(olds) > 1:
                    say("%s: %s fall together as %s%s" % (short, " and ".join(sorted(olds)), n, what))
                if rt and not what and n in bound and n not in names:
                    say("%s: %s becomes %s, which the source binds there" % (short, olds[0], n))
        for d in tree.defs.get(p, []):
            n = table.get(d.name, d.name)
            if n != d.name and n in foreign_here:
                say("%s: %s becomes %s, which is imported there" % (short, d.name, n))
    for k, v in sorted(table.items()):
        if v in table:
            say("the table: %s becomes %s, which becomes %s" % (k, v, table[v]))


def imports(root, say):
    own = crates(root)
    names_of = {}

    def names(path):
        if path not in names_of:
            names_of[path] = set()
            out = {d.name for d in definitions(path)}
            for l in read(path).split("\n"):
                m = re.match(r"\s*(?:[\w]+ )*pub (?:[\w]+ )*use \S+\.\{(.*)\}", l)
                if m:
                    out |= {n.split(" as ")[-1].strip() for n in m.group(1).split(",")}
            names_of[path] = out
        return names_of[path]

    count = 0
    for p in files(root, (".antt", ".rt")):
        for path, ns, alias in uses(read(p)):
            if not own_path(path, own) and not path.endswith("proofs.Prelude"):
                continue
            parts = path.split(".")
            if parts[1] not in own:
                continue
            for k in range(len(parts), 2, -1):
                f = os.path.join(root, "crates", *parts[1:k]) + ".antt"
                if os.path.exists(f):
                    break
            else:
                continue
            for a, b in ns:
                count += 1
                if a not in names(f):
                    say("%s: %s is not in %s" % (os.path.relpath(p, root), a, os.path.relpath(f, root)))
    return count


def main():
    args = sys.argv[1:]
    here = os.path.dirname(HERE)
    if args[:1] == ["--make"]:
        trees = [Tree(r) for r in args[1:] or [here]]
        table, notes = make(trees)
        if os.path.exists(TABLE) and 2 * len(table) < len(load()):
            sys.exit("respell: the trees are respelled already, and the table stays: name those from before")
        with open(TABLE, "w", encoding="utf-8") as f:
            for k in sorted(table):
                f.write("%s\t%s\n" % (k, table[k]))
            for n in notes:
                f.write("# %s\n" % n.lstrip("# "))
        for n in notes:
            print(n)
        for t in trees:
            clashes(table, t, lambda s: print("%s: %s" % (os.path.basename(t.root), s)))
        print("%d names" % len(table))
        return
    if args[:1] == ["--clashes"]:
        clashes(load(), Tree(os.path.realpath(args[1]) if args[1:] else here), print)
        return
    if args[:1] == ["--imports"]:
        n = imports(os.path.realpath(args[1]) if args[1:] else here, print)
        print("%d imported names" % n)
        return
    root = os.path.realpath(args[0]) if args else here
    tree, table, changed = Tree(root), load(), 0
    w = Writer(table, tree)
    todo = {}
    for p in files(root, (".antt", ".rt")):
        todo[p] = w.text(p, read(p))
    for p in files(root, (".edit",)):
        todo[p] = w.edit(p, read(p))
    for p in [os.path.join(root, "README.md")] + [os.path.join(root, "docs", n) for n in sorted(os.listdir(os.path.join(root, "docs"))) if n.endswith(".md")]:
        todo[p] = re.sub(r"`([^`\n]*)`", lambda m: "`" + w.plain(m.group(1)) + "`", read(p))
    p = os.path.join(root, "tools", "walk")  # it writes proofs
    if os.path.exists(p):
        todo[p] = re.sub(r"[\w'-]+", lambda m: table.get(m.group(0), m.group(0)), read(p))
    for p, text in todo.items():
        if text != read(p):
            with open(p, "w", encoding="utf-8") as f:
                f.write(text)
            changed += 1
    for s in sorted(w.said):
        print(s)
    print("%d files changed" % changed)

if __name__ == "__main__":
    main()
