#!/bin/sh
# Extracts the sections of debugging entries from an ELF file that is linked.
#
# Usage: scripts/sections.sh FILE DIR
#
# Writes DIR/debug_info, DIR/debug_abbrev, DIR/debug_str, DIR/debug_line_str and
# DIR/debug_str_offsets, decompressed. A section that FILE lacks is an empty file. FILE stays as it is.
# A FILE without debugging entries, or one whose offsets are still to be relocated (an object file), is
# refused with status 1. scripts/elf_sections.py does the work.
set -eu

if [ $# -ne 2 ]; then
    echo "usage: $0 FILE DIR" >&2
    exit 2
fi
mkdir -p "$2"
exec python3 "$(dirname "$0")/elf_sections.py" "$1" "$2"
