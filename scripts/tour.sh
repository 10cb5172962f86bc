#!/bin/sh
# Shows each command of the program over the sections of a real file.
#
# Usage: scripts/tour.sh [PROGRAM [DIR NAME]]
#
# PROGRAM is the built `dwarf` (crates/dwarf/out/dwarf), DIR has the sections as scripts/sections.sh writes them, and
# NAME is that of an entry which has a DW_AT_decl_line. Without them it is examples/types and its `table`. The status is
# 0 where all that is said of the section before and after an edit holds, else 1.
set -eu

here=$(dirname "$0")
program=${1:-$here/../crates/dwarf/out/dwarf}
dir=${2:-$here/../examples/types}
name=${3:-table}

scratch=$(mktemp -d)
trap 'rm -rf "$scratch"' EXIT
over() {
    info=$1
    shift
    "$program" "$@" --info "$info" --abbrev "$dir/debug_abbrev" --str "$dir/debug_str" \
        --line-str "$dir/debug_line_str" --str-offsets "$dir/debug_str_offsets"
}
say() {
    printf '\n$ dwarf %s\n' "$*"
}

say "show   (the first lines)"
over "$dir/debug_info" show > "$scratch/shown"
head -n 8 "$scratch/shown"

say find "$name"
over "$dir/debug_info" find "$name" | tee "$scratch/found"
offset=$(head -n 1 "$scratch/found" | cut -d ' ' -f 1)

say type "$offset"
over "$dir/debug_info" type "$offset"

say "check   (a line for each thing that is wrong)"
over "$dir/debug_info" check

say "copy   (compared with the section)"
over "$dir/debug_info" copy | cmp - "$dir/debug_info"

say set "$offset" DW_AT_decl_line 99 "  (the bytes that differ, and what they say)"
over "$dir/debug_info" set "$offset" DW_AT_decl_line 99 > "$scratch/edited"
cmp -l "$dir/debug_info" "$scratch/edited" || true
over "$scratch/edited" show | diff "$scratch/shown" - || true
over "$scratch/edited" check

say set "$offset" DW_AT_type 1
status=0
over "$dir/debug_info" set "$offset" DW_AT_type 1 || status=$?
[ "$status" -eq 1 ]
