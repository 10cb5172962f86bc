#!/usr/bin/env bash
# Looks whether a machine has what the gate needs, in a second.
#
# Usage: scripts/gate/needs.sh
#
# Printed is a line for each thing that is lacking. Those without which a step fails end the gate: the status is then 1.
# Those without which a step leaves something out are told of, and no more.
set -uo pipefail
cd "$(dirname "$0")/../.." || exit 1

failed=0
needs() {
    echo "gate: it needs $1"
    failed=1
}
lacks() {
    echo "gate: there is no $1 here, so $2"
}
has() {
    command -v "$1" > /dev/null 2>&1 && "$1" --version > /dev/null 2>&1
}

command -v rt > /dev/null 2>&1 || needs "the kit's command rt on the path"
python3 -c 'import sys; sys.exit(sys.version_info < (3, 10))' 2> /dev/null || needs "Python 3.10 or later (python3)"
has git || needs "git"
git rev-parse --verify HEAD > /dev/null 2>&1 || needs "to stand in a git repository, since steps work in clones of it"
has cc || needs "a C compiler (cc)"
has ar || needs "an archiver (ar)"
room=$(mktemp -d) || needs "a folder for temporary files"
trap 'rm -rf "$room"' EXIT
# 20 GB for clones and what is kept, where they lie
for folder in "$PWD" "$room"; do
    free=$(df -Pk "$folder" | awk 'NR == 2 { print int($4 / 1048576) }')
    [ "${free:-0}" -ge 20 ] || needs "20 GB of disk at $folder (there are ${free:-0})"
done
# verdicts are kept in a folder of one's own: others might write theirs into one in /tmp
cache=${XDG_CACHE_HOME:-${HOME:+$HOME/.cache}}
if [ -z "$cache" ]; then
    needs "HOME or XDG_CACHE_HOME, for what is kept of verdicts"
elif ! mkdir -p "$cache" 2> /dev/null || [ ! -w "$cache" ]; then
    needs "a folder that it can write to, $cache"
fi
has c++ || lacks "c++" "the library for C isn't built into a program in C++"
has cargo || lacks "cargo" "the crate in bindings/rust isn't tested"
has pkg-config || lacks "pkg-config" "rothelduf.pc isn't tried"
has valgrind || lacks "valgrind" "no instructions are counted (bench/count)"
has readelf || lacks "readelf" "the sections of ELF files aren't compared with what it says"
if has cc; then
    echo 'int main(void) { return 0; }' > "$room/none.c"
    cc -fsanitize=address,undefined "$room/none.c" -o "$room/none" > /dev/null 2>&1 ||
        lacks "libasan or libubsan" "the library for C is driven over changed sections without them"
fi
exit $failed
