#!/usr/bin/env python3
"""Spells names that the check makes after the code as the code does.

In proofs/F/Answers.antt and Invariants.antt a name such as `returns-then-not-is-name-byte`
speaks of the function `is_name_byte`; today's check keeps the function's underscores.

Run at the top, for the crates named:  python3 tools/respell_goals.py book scale
"""
import glob
import re
import sys

STD = ["copy_from_slice", "from_utf8", "as_slice", "as_bytes", "as_str", "is_empty", "push_str", "get_mut",
       "with_capacity", "split_at", "split_at_mut", "checked_add", "saturating_add", "from_str", "is_some",
       "is_none", "is_ok", "is_err", "ok_or", "swap_remove", "trim_start", "strip_prefix", "starts_with",
       "ends_with", "to_vec", "as_ref", "as_mut", "unsigned_abs", "try_from", "ok_or_else", "iter_mut", "in_default", "in_ok", "in_err", "in_some", "in_none"]


def code_names():
    names = set(STD)
    for path in glob.glob("crates/*/src/**/*.rt", recursive=True):
        text = re.sub(r"//.*", "", open(path, encoding="utf-8").read())
        names |= {n for n in re.findall(r"\b[a-z][a-z0-9]*(?:_[a-z0-9]+)+\b", text)}
    return sorted(names, key=len, reverse=True)


def main():
    kebab = [(n.replace("_", "-"), n) for n in code_names()]
    pattern = re.compile(r"(?<![a-z0-9_])(" + "|".join(re.escape(k) for k, _ in kebab) + r")(?![a-z_])")
    back = dict(kebab)
    for crate in sys.argv[1:]:
        files = (glob.glob("crates/%s/proofs/**/Answers.antt" % crate, recursive=True)
                 + glob.glob("crates/%s/proofs/**/Invariants.antt" % crate, recursive=True))
        for path in files:
            text = open(path, encoding="utf-8").read()
            made = set(re.findall(r"(?:goal|given)\.([^\s(){};,.]+)", text))
            made |= set(re.findall(r"\.([^\s(){};,.]+)", re.sub(r"use .*", "", text)))
            made |= {n for block in re.findall(r"\.(?:Goals|Given|Lts[\w.]*)\.\{([^}]*)\}", text)
                     for n in re.split(r",\s*", block)}

            def one(m):
                token = m.group(0)
                if token not in made or "-" not in token:
                    return token
                return pattern.sub(lambda k: back[k.group(1)], token)

            new = re.sub(r"[^\s(){};,.«»\"`]+", one, text)
            if new != text:
                open(path, "w", encoding="utf-8").write(new)
                print(path)


main()
