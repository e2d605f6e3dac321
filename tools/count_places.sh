#!/bin/bash
# Counts, in the code of every crate, the places that the design pass looks at (docs/DESIGN-PASS.md).
# With a name of a count it lists that count's places. Tests are left out.
cd "$(dirname "$0")/.." || exit 1
files=$(find crates/*/src -name '*.rt' ! -name 'tests.rt' ! -path '*/tests/*' ! -path 'crates/cases/*' | sort)

# NAME PATTERN: lines of code that match.
count() {
    if [ -z "$wanted" ]; then
        printf '%-28s %s\n' "$1" "$(grep -hE "$2" $files | grep -cvE '^\s*//')"
    elif [ "$wanted" = "$1" ]; then
        grep -nE "$2" $files | grep -vE '^[^:]*:[0-9]*:\s*//'
    fi
}
wanted=$1

# 1: numbers that stand for nothing; flags; matches that Option's and Result's methods write; numbers for kinds.
count 1-stands-for-nothing 'const NO_[A-Z]+|: (usize|u16) = 65_535|place: 65_535'
count 1-flag '\b[a-z_]+: (&(mut )?\[)?bool\b'
count 1-match-by-hand '^\s*None => (None|false|0|y|true|unreachable|Err)|^\s*Some\([a-z]\) => (Some|Ok)\(|^\s*Err\(_?[a-z]*\) => Err|Ok\(\(\)\) => Ok|\{ None \}|^\s+None$'
count 1-number-of-a-refusal '=> [0-9]+,$'
# 2: names that come in twos (the two kinds of names, of weights, of sources, of lists).
count 2-twin-name 'fn [a-z_]*(entity|role_name|ceiling|distance)[a-z_]*\b|fn as_stated|fn (strict|solid)_is_plain|^impl.* Source for|fn (transcript|roster|main)\b|fn (add|withdraw|present)\('
# 3: loops.
count 3-loop '^\s*(.[a-z]+: )?(while|for|loop)\b.*\{$'
count 3-counted-by-hand '[a-z_.]+ (\+|-)= 1;|in 0\.\.'
# 4: equality, order, copying, conversion and printing written out.
count 4-by-hand '^impl.* (PartialEq|Eq|Ord|PartialOrd|Clone|Copy) for|fn (is|says|told|tell|statement|push_digits|push_integer|read_verb|read_sign|read_token)\b|\.bytes <= |\.points <= '
# 5: facts that are asked for, and long lists of parameters.
count 5-requires '^\s*requires '
count 5-same-parameter '^\s*(index|former|changed|fresh|latest|reasons|count|entities|heads|end|ended|threshold): |words: &mut Parts'
# 6: arrays of a fixed size, lengths beside them, lists lent side by side.
count 6-fixed-array '\[[^];]+; [A-Z_]+\]'
count 6-length-beside '\b(len|height|heads|many|count): (usize|u8|u16)|let mut (height|count|heads) = '
# 7: values and parameters that are functions, and switches on which step to run.
count 7-function-value '\bfn\(|dyn |\b(Fn|FnMut|FnOnce)\('
count 7-switch 'ScaleWord::[A-Z][a-z]+ =>|Verb::[A-Z][a-z]+\) =>'
# 8: proofs.
if [ -z "$wanted" ]; then
    printf '%-28s %s\n' 8-proof-files "$(find crates/*/proofs -name '*.antt' | wc -l)"
    printf '%-28s %s\n' 8-proof-lines "$(find crates/*/proofs -name '*.antt' -exec cat {} + | wc -l)"
    printf '%-28s %s\n' 8-answers "$(find crates/*/proofs -name Answers.antt -exec grep -hE '^(pub )?[a-z0-9_-]+ .*=|^pub [a-z0-9_-]+ :' {} + | grep -cE '^pub ')"
fi
