#!/usr/bin/env bash
# The static library of crates/rewriter, called from C, beside the program: rewriter.sh [CALLS [SEED]].
# Random calls, of which one in ten asks for a clause text, are compared with the program's answers to the same commands. The C
# code runs with the address and undefined-behaviour sanitizers and, if valgrind is installed, a part of the calls once more
# under it, which also sees what the library reads and writes. Needs gcc.
set -euo pipefail
root=$(cd "$(dirname "${BASH_SOURCE[0]}")/.." && pwd)
calls=${1:-20000}
seed=${2:-1}
work=$(mktemp -d)
trap 'rm -rf "$work"' EXIT

log=$(cd "$root/crates/rewriter" && rt lib 2>&1 </dev/null) || { echo "$log" >&2; exit 1; }
library=$root/crates/rewriter/out/librewriter.a
compile="gcc -std=c99 -Wall -Wextra -Wconversion -pedantic -Werror -g -O1"

$compile -fsanitize=address,undefined -fno-sanitize-recover=all -o "$work/sanitized" "$root/tests/rewriter.c" "$library"
"$work/sanitized" "$seed" "$calls" "$work/commands" "$work/answers"
"$root/kegbirun" "$work/commands" | sed -E 's/^(examine|clauses): refused ([0-9]+) .*/\1: refused \2/' >"$work/program"
if ! cmp -s "$work/answers" "$work/program"; then
    echo "the library (<) and the program (>) differ:"
    diff -a "$work/answers" "$work/program" | head -n 20
    exit 1
fi
for number in 1 2 3 4 9 10 11 12; do
    grep -qx "examine: refused $number" "$work/answers" || { echo "no call of examine was refused with $number"; exit 1; }
done
for number in 1 2 3 4 5; do
    grep -qx "clauses: refused $number" "$work/answers" || { echo "no clause text was refused with $number"; exit 1; }
done

$compile -o "$work/example" "$root/c/example.c" "$library"
"$work/example" >"$work/example.text" 2>"$work/example.said"
echo "clauses 3 e8 1 1 1" | "$root/kegbirun" | cmp - "$work/example.text"
grep -qx "examine: level 1 fan-out 1" "$work/example.said"

checked="valgrind is not installed"
if command -v valgrind >/dev/null; then
    part=$((calls / 20))
    $compile -o "$work/plain" "$root/tests/rewriter.c" "$library"
    valgrind -q --error-exitcode=1 "$work/plain" "$seed" "$part" "$work/commands.part" "$work/answers.part"
    cmp -n "$(stat -c %s "$work/answers.part")" "$work/answers" "$work/answers.part"
    checked="$part calls again under valgrind"
fi

accepted=$(grep -c "^examine: level" "$work/answers")
texts=$(grep -c "^p cnf" "$work/answers")
refused=$(grep -c ": refused" "$work/answers")
compared=$(wc -l <"$work/commands")
echo "$compared calls compared with the program, no difference: $accepted networks accepted, $texts clause texts, $refused refused; $checked"
