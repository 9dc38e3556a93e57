#!/usr/bin/env python3
"""Turns proofs that walk the code (Proof.antt) into invariants and answers, once, with the old and new names that
`rt names OUT` listed.

usage: python3 tools/to_answers.py OUT CRATE..     at the top of the repository; OUT is the folder that rt names wrote
"""
import glob
import json
import os
import re
import sys

ORIGIN = "eb6edd9"
WORD = r"[^\s(){}\[\],;.]+"
PATH = re.compile(r"(?<![\w'.₀-₉-])c((?:\.(?:[A-Za-z_][\w'+-]*|\d+))+)(?![\w'₀-₉-])")


def norm(name):
    return name.replace("-", "_").replace("·", "_")


def text_of(path):
    with open(path, encoding="utf-8") as f:
        return f.read()


def clauses_of(crates):
    """The names of the clauses of each function that has several of a kind."""
    found = {}
    for crate in crates:
        for path in glob.glob(f"crates/{crate}/src/*.rt"):
            name, kinds = None, {}
            for line in text_of(path).split("\n"):
                it = re.match(r"(?:pub )?(?:extern \"C\" )?fn (\w+)", line)
                if it:
                    name, kinds = f"{crate}::{it[1]}", {}
                    found[name] = kinds
                it = re.match(r"\s+(requires|ensures)(?: (\w+))? \{", line)
                if it and name:
                    kinds.setdefault(it[1], []).append(it[2])
                if line == "{":
                    name = None
    return found


class Function:
    def __init__(self, crate, name, entry, clauses):
        self.crate, self.name, self.entry, self.clauses = crate, name, entry, clauses
        self.needs = {}
        for (old, new), (place, _) in zip(entry["needs"], entry["asked_at"]):
            self.needs[norm(old)] = (new, place)
            for word, turned in (("loop", "loop"), ("init", "holds"), ("smaller", "less"), ("preserved", "again")):
                self.needs.setdefault(norm(old).replace(word, turned), (new, place))
        self.at = {}
        for i, place in enumerate(entry["places"]):
            arms = entry["arms"][i] if i < len(entry["arms"]) else None
            self.at[place[0]] = (place[1], place[2], place[3], arms)
        self.said = []

    def flat(self, place, words, depth=0):
        """The new path of an old one, `words` behind a record of the place."""
        words = [w for w in words]
        while words and words[0] == "before":
            words.pop(0)
        if not words:
            self.said.append(f"a bare path at {place}")
            return None
        step, rest = words[0], words[1:]
        wanted = {norm(step), re.sub(r"_lem$", "", norm(step)), norm(step).lower(), norm(step).replace("type_size", "size_of")}
        found = place
        while found and norm(self.at[found][1][0]) not in wanted:
            found = self.at[found][0]
        if not found:
            if step not in ("args", "requires", "ranges", "type_inv", "well_formed", "lifetimes", "blocks"):
                self.said.append(f"no {step} at or above {place}")
            return "c." + ".".join(self.requires(self.name_of(), words))
        parent, (old, new), callee, arms = self.at[found]
        if arms:
            best = None
            for label, of, path in arms[2]:
                if norm(of) == norm(old) and rest[: len(path)] == path and (best is None or len(path) > len(best[1])):
                    best = (label, path)
            if best and (best[1] or not best[0].endswith("-own")):
                tail = rest[len(best[1]):]
                return "c." + ".".join([arms[0], best[0]] + tail)
            if best:
                return "c." + ".".join([arms[0], best[0]] + rest)
        if callee and rest[:1] in (["last"], ["new"]) and rest[1:] and rest[1].isdigit():
            params = self.entry["params"].get(callee)
            i, k = 1, 0
            while i < len(rest) and rest[i] == "1":
                i, k = i + 1, k + 1
            if params and i < len(rest) and rest[i] == "0":
                rest = ["new", params[k]] + rest[i + 1:]
        if callee and rest[:1] == ["ensures"] and len(rest) > 1 and rest[1].isdigit():
            names = self.clauses.get(callee, {}).get("ensures", [])
            if len(names) > 1 and int(rest[1]) < len(names):
                rest = ["ensures", names[int(rest[1])]] + rest[2:]
        return "c." + ".".join([new] + rest)

    def name_of(self):
        return f"{self.crate}::{self.name}"

    def requires(self, callee, words):
        if words[:1] == ["requires"] and len(words) > 1 and words[1].isdigit():
            names = self.clauses.get(callee, {}).get("requires", [])
            if len(names) > 1 and int(words[1]) < len(names):
                return ["requires", names[int(words[1])]] + words[2:]
        return words


def chunks(text):
    """The declarations of a proof file: (comments, lines)."""
    found, comments, lines = [], [], []
    for line in text.split("\n"):
        if line.startswith("--"):
            if lines:
                found.append((comments, lines))
                comments, lines = [], []
            comments.append(line)
        elif not line.strip():
            if lines:
                found.append((comments, lines))
                comments, lines = [], []
        else:
            lines.append(line)
    if lines:
        found.append((comments, lines))
    return found


def expand_aliases(body):
    """Lets that only name a path of `c` are put in."""
    while True:
        it = re.search(r"\blet ([\w']+) = (c(?:\.before)*(?:\.args|\.requires)?(?:\.[a-z_]\w*\.now|\.[a-z]\w*)?) in\s?", body)
        if not it or it[2].count(".") and re.search(r"\.(ensures|given|invariant|loop|result)", it[2]):
            it = None
            for m in re.finditer(r"\blet ([\w']+) = (c(?:\.before)*(?:\.args)?|c(?:\.[\w-]+)*\.given) in\s?", body):
                it = m
                break
            if not it:
                return body
        name, path = it[1], it[2]
        before, after = body[: it.start()], body[it.end():]
        after = re.sub(rf"(?<![\w'.₀-₉-]){re.escape(name)}(?=[.\s,;)}}]|$)(?!-)", path, after)
        body = before + after


def split_tuple(text):
    """The parts of `(a, b, ..)`, or None."""
    text = text.strip()
    if not (text.startswith("(") and text.endswith(")")):
        return None
    depth, parts, last = 0, [], 1
    for i, ch in enumerate(text):
        if ch in "([{":
            depth += 1
        elif ch in ")]}":
            depth -= 1
            if depth == 0 and i < len(text) - 1:
                return None
        elif ch == "," and depth == 1:
            parts.append(text[last:i])
            last = i + 1
    tail = text[last:-1]
    if tail.strip():
        parts.append(tail)
    return [p.strip() for p in parts]


def last_expression(body):
    """Where the expression behind the last `in` at the top begins."""
    depth, at = 0, 0
    for it in re.finditer(r"[()\[\]{}]|\bin\b", body):
        if it[0] in "([{":
            depth += 1
        elif it[0] in ")]}":
            depth -= 1
        elif depth == 0:
            at = it.end()
    return at


def named_parts(body, names):
    at = last_expression(body)
    head, tail = body[:at], body[at:]
    wrap = re.match(r"(\s*(?:rw|simp) (?:\([^()]*\)|[\w.'-]+) )(\(.*\)\s*)$", tail, re.S)
    front = ""
    if wrap:
        front, tail = wrap[1], wrap[2]
    parts = split_tuple(tail)
    if not parts or len(parts) != len(names):
        return None
    made = "; ".join(f"{n} = {p}" for n, p in zip(names, parts))
    text = f"record {{ {made} }}"
    return head + ((front + "(" + text + ")") if front else (" " + text))


TOKEN = re.compile(r"[A-Za-z_][\w'₀-₉]*(?:-[\w'₀-₉]+)*")


def imports_for(uses, body):
    words = set(TOKEN.findall(body))
    kept = []
    for line in uses:
        it = re.match(r"use (\S+)\.\{(.*)\}$", line)
        if not it:
            last = line.split()[-1]
            if last in words or f"{last}." in body:
                kept.append(line)
            continue
        names = []
        for name in re.split(r",\s*", it[2]):
            word = name.split(" as ")[-1]
            if "◌" in word:
                parts = [p for p in word.split("◌") if p]
                if all(p in body for p in parts):
                    names.append(name)
            elif word in words or not TOKEN.fullmatch(word):
                names.append(name)
        if names:
            kept.append(f"use {it[1]}.{{{', '.join(names)}}}")
    return kept


def answer_body(fn, body, place, callee_names):
    body = expand_aliases(body)
    said = []

    def new(it):
        words = it[1][1:].split(".")
        flat = fn.flat(place, words)
        return flat or it[0]

    body = PATH.sub(new, body)
    step = r"c\.if-not-[\w'-]+\.(?:true|false)"
    body = re.sub(rf"\(not-(?:true|false) (?:_|c[\w.'-]+) ({step})\)", r"\1", body)
    return re.sub(rf"not-(?:true|false) (?:_|c[\w.'-]+) ({step})", r"\1", body)


def spec_arguments(text):
    """The arguments of tie.spec."""
    at = text.index("tie.spec")
    depth, parts, word, i = 0, [], "", at + len("tie.spec")
    while i < len(text):
        ch = text[i]
        if ch in "([{":
            depth += 1
        if ch in ")]}":
            depth -= 1
            if depth < 0:
                break
        if depth == 0 and ch.isspace():
            if word.strip():
                parts.append(word.strip())
            word = ""
        else:
            word += ch
            if depth == 0 and ch == ")":
                parts.append(word.strip())
                word = ""
        i += 1
    if word.strip():
        parts.append(word.strip())
    return parts


def turn(crate, name, folder, entry, clauses):
    fn = Function(crate, name, entry, clauses)
    path = f"{folder}/Proof.antt"
    text = text_of(path)
    origin = os.popen(f"git show {ORIGIN}:{path} 2>/dev/null").read()
    old_needs = re.findall(r"tie\.Need-([^\s()]+)", origin)
    new_needs = re.findall(r"tie\.Need-([^\s()]+)", text)
    if len(old_needs) != len(new_needs):
        return [f"{path}: {len(old_needs)} needs before port.py and {len(new_needs)} after"]
    count = 0
    uses, head, kept, invariants, answers, helpers, inline, problems = [], [], [], [], [], {}, [], []
    for comments, lines in chunks(text):
        if lines[0].startswith("use "):
            uses += [l for l in lines if l.startswith("use ") and not re.search(r"\.(Statement|Tie)\b", l)]
            head += comments
            continue
        whole = "\n".join(lines)
        if "tie.close" in whole or re.search(r"statement M", whole):
            if "tie.spec" in whole:
                given = spec_arguments(whole)
                loops_ = 2 * len(entry["loops"])
                if len(given) != loops_ + len(entry["needs"]):
                    listed_problem = [f"{path}: tie.spec has {len(given)} arguments, and there are {loops_} + {len(entry['needs'])}"]
                else:
                    listed_problem = []
                    for arg, (old, new), (place, _) in zip(given[loops_:], entry["needs"], entry["asked_at"]):
                        it = re.match(r"\(λ c(?: κs)?((?: (?!κs)[^\s.]+)*)\.\s*(.*)\)$", arg, re.S)
                        if it and it[2].strip() not in ("search rules", "omega arith", "refl"):
                            unf = re.search(r"(?m)^unfolding .*$", whole)
                            more = it[1].strip()
                            inline.append((new, place, (f"λ {more}. " if more else "") + it[2], unf and unf[0]))
                problems += listed_problem
            continue
        kept.append((comments, lines))
    # helpers over a place's record are put in where they are used
    rest = []
    for comments, lines in kept:
        sig = lines[0]
        it = re.match(r"(\S+) : \((\w+) : tie\.((?!Need)[A-Za-z][\w-]*)[^)]*\)\s*→\s*(.*)$", " ".join(l.strip() for l in lines if not l.startswith("unfolding") and not re.match(rf"{re.escape(lines[0].split()[0])} [\w ]*=", l)).strip())
        whole = "\n".join(lines)
        if it and "tie.Need" not in whole:
            name_, var, place, typ = it[1], it[2], it[3], it[4]
            typ = typ.split(f"\n{name_} ")[0]
            body = re.search(rf"(?m)^{re.escape(name_)} (\w+) =(.*)", whole, re.S)
            tm = re.search(rf"^{re.escape(name_)} : \([^)]*\)\s*→\s*(.*?)(?=^unfolding|^{re.escape(name_)} \w+ =)", whole, re.S | re.M)
            if body and tm:
                over_c = lambda t, v: re.sub(rf"(?<![\w'.₀-₉-]){re.escape(v)}(?=[.\s),;]|$)", "c", t)
                helpers[name_] = ("c", "c", over_c(tm[1].strip(), var), expand_aliases(over_c(body[2].strip(), body[1])), comments)
                continue
            problems.append(f"{path}: the helper {name_} is left")
        rest.append((comments, lines))

    # an answer that others name is put in there too
    whole_text = "\n".join("\n".join(lines) for _, lines in rest)
    for comments, lines in rest:
        whole = "\n".join(lines)
        it = re.match(r"(\S+) : tie\.Need-", whole)
        if it and re.search(rf"(?<![\w'.₀-₉-]){re.escape(it[1])} c", whole_text.replace("\n" + it[1] + " c", "")):
            body = re.search(rf"(?m)^{re.escape(it[1])} c(?: κs)? =(.*)", whole, re.S)
            if body:
                helpers[it[1]] = ("c", "c", None, expand_aliases(body[1].strip()), comments)

    def put_helpers(body):
        for _ in range(6):
            changed = False
            for h, (tvar, bvar, typ, hbody, _) in helpers.items():
                pat = re.compile(rf"(?<![\w'.₀-₉-]){re.escape(h)} (c(?:\.before)*)(?![\w'.-])")

                def put(it):
                    t = typ and re.sub(rf"(?<![\w'.₀-₉-]){re.escape(tvar)}(?=[.\s)]|$)", it[1], typ)
                    b = re.sub(rf"(?<![\w'.₀-₉-]){re.escape(bvar)}(?=[.\s),;]|$)", it[1], hbody)
                    return f"(let it : {t} = {b} in it)" if t else f"({b})"

                body, n = pat.subn(put, body)
                changed |= bool(n)
            if not changed:
                break
        return body

    def clause_names(goal):
        if goal.startswith("returns"):
            return clauses.get(fn.name_of(), {}).get("ensures", [])
        for callee in fn.entry["params"]:
            short = callee.split("::")[-1]
            if re.match(rf"{re.escape(short)}(-.*)?-requires", goal):
                return clauses.get(callee, {}).get("requires", [])
        return []

    def answer(comments, goal, place, unf, text_):
        text_ = put_helpers(text_)
        text_ = answer_body(fn, text_, place, clauses)
        names = clause_names(goal)
        if len(names) > 1:
            made = named_parts(text_, names)
            if made:
                text_ = made
            else:
                problems.append(f"{path}: {goal} has the clauses {names}")
        answers.append("\n".join(comments + [f"pub {goal} : goal.{goal}"] + ([unf] if unf else []) + [f"{goal} c ={text_}"]))
        problems.extend(f"{path}: {goal}: {p}" for p in fn.said)
        fn.said = []

    for comments, lines in rest:
        whole = "\n".join(lines)
        it = re.match(r"(?:abbrev )?(\S+) : tie\.Need-([^\s()]+)", whole)
        inv = re.match(r"(?:abbrev )?(?:pub )?(\S+) : tie\.(\S+)", whole)
        if it:
            old = old_needs[count]
            count += 1
            found = fn.needs.get(norm(old)) or fn.needs.get(norm(it[2]))
            if not found:
                problems.append(f"{path}: no goal for {old}")
                continue
            goal, place = found
            unf = re.search(r"(?m)^unfolding .*$", whole)
            body = re.search(rf"(?m)^{re.escape(it[1])} (.*?)=", whole)
            if not body:
                problems.append(f"{path}: no body of {it[1]}")
                continue
            args = body[1].split()
            text_ = whole[body.end():]
            if args[:1] != ["c"]:
                problems.append(f"{path}: {it[1]} takes {args}")
            if not unf and text_.strip() in ("search rules", "omega arith", "refl", "tt"):
                continue
            more = " ".join(a for a in args[1:] if a != "κs")
            answer(comments, goal, place, unf and unf[0], (f" λ {more}." if more else "") + text_)
        elif inv:
            it = re.match(r"(invariant|decreases)[-_](.*)$", inv[1])
            body = re.search(rf"(?m)^{re.escape(inv[1])} (.*?)=(.*)", whole, re.S)
            loops = {norm(l[0][0]): (l[0][1], l[1], ch) for l, ch in zip(entry["loops"], entry["changed"])}
            kind = inv[2].split()[0]
            key = norm(re.sub(r"^(invariant|decreases)[-_]", "", kind))
            if not it or key not in loops or not body:
                problems.append(f"{path}: the invariant {inv[1]} of {kind} is left ({list(loops)})")
                continue
            new, names, changed = loops[key]
            args = body[1].split()
            paths = [f"l.initial.{n}" if ch else f"l.{n}" for n, ch in zip(names, changed)] + [f"l.{n}" for n, ch in zip(names, changed) if ch]
            if len(args) != len(paths):
                problems.append(f"{path}: {inv[1]} takes {len(args)} and not {len(paths)}: {args} {paths}")
                continue
            table = dict(zip(args, paths))
            text_ = re.sub(r"(?<![\w'.₀-₉-])([A-Za-z_][\w'₀-₉]*)(?![\w'₀-₉-]|\s*=(?!=))", lambda m: table.get(m[1], m[1]), body[2])
            # a label keeps its name
            invariants.append("\n".join(comments + [f"abbrev pub {it[1]}-{new} : goal.{it[1]}-{new}", f"{it[1]}-{new} l ={text_}"]))
        else:
            answers.append("\n".join(comments + [whole if whole.startswith("module") else whole]))
    for goal, place, text_, unf in inline:
        answer([], goal, place, unf, "\n    " + text_)
    for kind, parts, module in (("Invariants", invariants, "Given"), ("Answers", answers, "Goals")):
        if not parts:
            continue
        body = "\n\n".join(parts)
        lines = imports_for(uses, body) + [f"use Rattle.{crate}.proofs.{name}.{module} as goal"]
        if "rules" in TOKEN.findall(body) and not any(re.search(r"\brules\b", l) for l in lines):
            lines.insert(0, "use borrow.Author.Rules.{rules}")
        with open(f"{folder}/{kind}.antt", "w", encoding="utf-8") as f:
            f.write("\n".join(head + lines) + "\n\n" + body + "\n")
    os.remove(path)
    return problems


def main():
    out, names = sys.argv[1], sys.argv[2:]
    with open("crates.txt", encoding="utf-8") as f:
        crates = [line.split(":")[0].split()[0] for line in f if line.strip() and not line.startswith("#")]
    clauses = clauses_of(crates)
    for crate in names:
        with open(f"{out}/crates/{crate}/names.json", encoding="utf-8") as f:
            listed = json.load(f)
        for path in sorted(glob.glob(f"crates/{crate}/proofs/*/Proof.antt")):
            folder = os.path.dirname(path)
            name = os.path.basename(folder)
            entry = listed.get(f"Rattle-{crate}-proofs.{name}.Lts")
            if name.startswith("+") or not entry or "tie.spec" not in text_of(path):
                print(f"{path}: left")
                continue
            for problem in turn(crate, name, folder, entry, clauses):
                print(problem)


if __name__ == "__main__":
    main()
