#!/usr/bin/env bash
# Proves and builds programs, and all that they stand on, on all processors: checks/build.sh PROGRAM..
# `rt ci` does it in a copy outside, which has no tests and no must-fail edits: for these it would prove crates once more.
set -euo pipefail
cd "$(dirname "${BASH_SOURCE[0]}")/.."

copy=$(mktemp -d)
trap 'rm -rf "$copy"' EXIT

if ! command -v rt > /dev/null; then
    echo 'rt, the command of the Rattle kit, is missing: it proves and builds the programs.' >&2
    exit 1
fi

# The crates below these programs, each with those that it stands on.
below() {
    awk -v sought="$*" -F: '
        { on[$1] = $2; order[NR] = $1 }
        function mark(crate,   i, n, all) {
            if (crate in seen || !(crate in on)) return
            seen[crate] = 1
            n = split(on[crate], all, " ")
            for (i = 1; i <= n; i++) mark(all[i])
        }
        END { n = split(sought, all, " "); for (i = 1; i <= n; i++) mark(all[i]); for (i = 1; i <= NR; i++) if (order[i] in seen) print order[i] ":" on[order[i]] }' crates.txt
}

mkdir -p out "$copy/crates"
cp HANDLES "$copy/"
below $(basename -a "$@") > "$copy/crates.txt"
cut -d: -f1 "$copy/crates.txt" | while read -r crate; do
    mkdir "$copy/crates/$crate"
    find "crates/$crate" -mindepth 1 -maxdepth 1 ! -name out ! -name must-fail -exec cp -r {} "$copy/crates/$crate/" \;
done

echo "Proving $(wc -l < "$copy/crates.txt") crates. That is some 170 minutes of one processor, shared by all; out/build.log has the whole text."
(cd "$copy" && rt ci 2>&1) | tee out/build.log | grep --line-buffered -E '^rt: .* (proved|NOT PROVED|is kept)|passed,'
for program in "$@"; do
    mkdir -p "$(dirname "$program")"
    cp "$copy/$program" "$program"
    echo "$program is proved and built."
done
