#!/usr/bin/env bash
# Tries what a caller must not be able to write: misuse/an_entry_outlives_its_unit.txt,
# misuse/an_entry_outlives_its_section.txt and misuse/a_text_outlives_its_strings.txt have to be refused as a
# borrow that still stands, and their sound counterparts have to pass.
#
# Usage: scripts/gate/misuse.sh
#
# They are modules of a small crate in a clone of this tree, over its libraries (scripts/gate/clones.py): one check
# judges the sound ones, another the others. The clone is gone at the end. What passed isn't tried again while all that
# it stands on is the same. The last line counts the callers that were judged rightly.
set -euo pipefail
cd "$(dirname "$0")/../.."

stop() {
    echo "misuse.sh: $1" >&2
    exit 1
}

libraries="dw_leb dw_unit dw_section dw_strings"
scratch=$(mktemp -d)
trap 'rm -rf "$scratch"' EXIT
trap 'exit 1' INT TERM HUP

sum=$( (scripts/gate/clones.py sum $libraries && cat scripts/gate/misuse.sh misuse/*.txt) | sha256sum | cut -d ' ' -f 1) || exit 1
if scripts/gate/kept.py show misuse "$sum"; then
    exit 0
fi
# What is lent of which owner, by the names of the callers' files.
lent="an_entry:unit an_entry:section a_text:strings"
sound="" unsound="" passed=0
for each in $lent; do
    sound+=" ${each%:*}_within_its_${each#*:}"
    unsound+=" ${each%:*}_outlives_its_${each#*:}"
done
for caller in $sound $unsound; do
    grep -q '^pub fn ' "misuse/$caller.txt" 2> /dev/null || stop "misuse/$caller.txt isn't there, or has no function"
done

clone=$scratch/clone
words=$(scripts/gate/clones.py make "$clone" $libraries)
crate=$clone/crates/misuse
mkdir -p "$crate/src"
# (where words tell of the libraries, none of them is built)
[ -z "$words" ] && needs=$libraries || needs=""
echo "misuse: $needs" >> "$clone/crates.txt"

# Puts these callers into the crate, each as a module of its own, and lets `rt check` judge them all.
check() {
    rm -f "$crate"/src/*.rt
    printf '//! Callers that use what was lent.\n#![tactic(auto)]\n\n' > "$crate/src/lib.rt"
    for caller; do
        grep -v '^#!\[tactic(auto)\]$' "misuse/$caller.txt" > "$crate/src/$caller.rt"
        echo "pub mod $caller;" >> "$crate/src/lib.rt"
    done
    (cd "$crate" && rt check $words) > "$scratch/answer" 2>&1
}

echo "misuse: checking the callers that use it before they drop its owner"
if ! check $sound; then
    cat "$scratch/answer"
    stop "a sound counterpart was refused"
fi
echo "misuse: checking those that use it after they drop its owner"
if check $unsound; then
    stop "what outlives its owner was not refused"
fi
for each in $lent; do
    caller=${each%:*}_outlives_its_${each#*:}
    if ! grep -q "^src/$caller.rt:.*borrow-e0505.*\`${each#*:}\`" "$scratch/answer"; then
        cat "$scratch/answer"
        stop "$caller was not refused as such"
    fi
    passed=$((passed + 2))
done
{
    echo "misuse: an entry or a text that outlives what it was lent from is refused, the sound counterparts pass"
    echo "$passed passed, 0 failed"
} | tee "$scratch/verdict"
scripts/gate/kept.py keep misuse "$sum" < "$scratch/verdict"
