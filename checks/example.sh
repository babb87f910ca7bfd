#!/usr/bin/env bash
# Makes a new file and runs the first example on it: checks/example.sh PROGRAM FILE
# Where the program isn't built, `rt try` builds and runs it without proving anything, joined to one crate.
set -euo pipefail
cd "$(dirname "${BASH_SOURCE[0]}")/.."

program=$1
file=$PWD/$2
mkdir -p "$(dirname "$file")"
rm -f "$file"

if [ -x "$program" ]; then
    "$program" init "$file"
    "$program" run "$file" < examples/first.ode
    echo "The program is $program, as \`make\` last proved and built it, and the file is $2."
    exit
fi

if ! command -v rt > /dev/null; then
    echo 'rt, the command of the Rattle kit, is missing: it builds the program.' >&2
    exit 1
fi

# One try of two runs: `init`, and then the script. Each takes its words from a file beside its input.
work=$(mktemp -d)
trap 'rm -rf "$work"' EXIT
runs=$work/runs
mkdir "$runs"
: > "$runs/1 init"
printf '%s\n' init "$file" > "$runs/1 init.args"
cp examples/first.ode "$runs/2 run first.ode"
printf '%s\n' run "$file" > "$runs/2 run first.ode.args"
echo 'There is no proved program yet, so rt builds one without proofs. This takes a minute or two.'
checks/joined.py "$work/joined"
if ! (cd "$work/joined/crates/ode" && rt try --steps 1000 --cases "$runs" 2> "$work/errors"); then
    cat "$work/errors" >&2
    exit 1
fi
echo
echo "This run was not proved. \`make\` proves and builds the program; the file is $2."
