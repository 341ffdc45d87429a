#!/usr/bin/env python3
"""Respells the repository's own definitions and lemmas: words in snake case, types and facts in camel case.

Run once at the top of the repository, after the kit's own port.py. Names that come from src/, names that the checker makes
(goals, steps of a function) and names of the library keep their spelling. A lemma about an equation keeps the dash between
the two names of its left side. Comments and strings stay. It prints names that fall together, and then changes nothing.
"""
import glob
import re
import sys

# the left sides of equations: outer name, dash, inner name
KEPT = {
    "bit-and", "bit-or", "bit-xor", "bit-suc", "bit-zero", "eqb-suc", "ltb-suc",
    "run-append", "walk-append", "toll-append", "since-append", "accepted-append",
}
# names that the checker makes; they stand as definitions in the files that answer it
MADE = re.compile(r"(returns|invariant|decreases|loop|overflow|bounds|nonzero|ensures)-.*|.*-requires(-.*)?|code-test")
# local names
LOCAL = {
    "bears-too", "draft-calls", "in-clock", "in-part", "is-next", "is-other", "is-settled", "is-settled'", "is-v",
    "not-settled", "on-changed", "role-time", "rule-time",
}
# definitions that a function of src/ is equal to, and whose name it has
EQUALS = {"bound-below": "bound_below_lem", "reached-below": "reached_below_lem", "next-reading": "next_reading_lem"}
# new names that stand elsewhere for something else that cannot be taken for them: a module's file, a method, a field
APART = {
    "WellFormed", "acts_toll", "clock_toll", "grade_toll", "draft_calls", "few_persons", "few_roles", "few_slots", "in_force",
    "is_rule", "may_use", "meets_in", "permission_mask", "role_schedule", "rule_schedule", "schedule_fits", "slot_now",
    "some_slot",
}
WORD = r"[^\s(){}\[\],;.◌\"]+"
TOKEN = re.compile(WORD)
DECLARED = re.compile(r"\s*(?:pub |abbrev |unfoldable )*(" + WORD + r")(?: [({].*)? : ")
TYPES = re.compile(r"\b(?:record|data) (" + WORD + ")")


def files():
    found = []
    for part in ("specs/**/*.antt", "proofs/**/*.antt", "src/**/*.rt"):
        found += glob.glob("crates/*/" + part, recursive=True)
    return sorted(set(found))


def split(path, line):
    """The line's text and its comment."""
    at = line.find("--" if path.endswith(".antt") else "//")
    return (line, "") if at < 0 else (line[:at], line[at:])


def new_name(name):
    if name in EQUALS:
        return EQUALS[name]
    parts = name.split("-")
    if name[0].isupper():
        return "".join(p[0].upper() + p[1:] for p in parts)
    return "_".join(parts)


def main():
    texts = {f: open(f, encoding="utf-8").read() for f in files()}
    own, others = set(LOCAL), set()
    for path, text in texts.items():
        for line in text.splitlines():
            code = split(path, line)[0]
            others.update(TOKEN.findall(code))
            if path.endswith(".antt") and not code.strip().startswith("use "):
                m = DECLARED.match(code)
                own.update([m.group(1)] if m else [])
                own.update(TYPES.findall(code))
    own = {n for n in own if "-" in n and n not in KEPT and not MADE.fullmatch(n)}
    turned = {n: new_name(n) for n in own}
    clash = sorted((n, t) for n, t in turned.items() if t in others and t not in APART)
    if clash:
        for pair in clash:
            print("falls together: %s -> %s" % pair)
        sys.exit(1)
    for path, text in texts.items():
        lines = []
        for line in text.splitlines(keepends=True):
            code, comment = split(path, line)
            lines.append(TOKEN.sub(lambda m: turned.get(m.group(0), m.group(0)), code) + comment)
        new = "".join(lines)
        if new != text:
            open(path, "w", encoding="utf-8").write(new)
    for name in sorted(turned):
        print(name, turned[name])


main()
