#!/usr/bin/env bash
# Builds the library for C, C++, Rust and Python, and compares what each sees with what the program prints.
#
# Usage: scripts/gate/bindings.sh [PROGRAM]
#
# PROGRAM is the built `dwarf` (crates/dwarf/out/dwarf). `rt lib` proves and builds crates/rothelduf_c in a clone of
# this tree, over its libraries (scripts/gate/clones.py). The archive, with the kit's heap in it, and the shared object
# lie in a temporary folder. Over it are built, with warnings as errors, the examples in C and C++ and the crate in
# bindings/rust with its tests. Compared are the functions that both examples print of the shipped sections, and by
# scripts/gate/bindings.py all that bindings/python tells of them. Driven over 20,000 changed sections, and with each
# request for memory refused, is examples/c/hostile.c, under the sanitizers of addresses and of undefined behaviour.
# What can't be tried here, for want of cc, c++, the sanitizers or cargo, is named before the last line; without cc
# nothing is, which is a failure. What passed isn't tried again while all that it stands on is the same. The last line
# is `N passed, M failed`, and the status is 0 where none failed.
set -euo pipefail

program=$(realpath "${1:-$(dirname "$0")/../../crates/dwarf/out/dwarf}")
top=$(cd "$(dirname "$0")/../.." && pwd)
room=$(mktemp -d)
trap 'rm -rf "$room"' EXIT
passed=0
failed=0

# ---- what there is here

left_out=""
has() {
    command -v "$1" > /dev/null 2>&1 && "$1" --version > /dev/null 2>&1
}
lacks() {
    left_out="$left_out$1"$'\n'
}
if ! has cc; then
    echo "bindings.sh: there is no C compiler (cc) here"
    echo "0 passed, 1 failed"
    exit 1
fi
if has c++; then with_cxx=1; else with_cxx=""; lacks "functions.cc, for want of c++"; fi
if has cargo; then with_cargo=1; else with_cargo=""; lacks "the crate in bindings/rust, for want of cargo"; fi
sanitizers="-fsanitize=address,undefined"
echo 'int main(void) { return 0; }' > "$room/none.c"
if ! cc $sanitizers "$room/none.c" -o "$room/none" > /dev/null 2>&1; then
    sanitizers=""
    lacks "the sanitizers of hostile.c, for want of libasan or libubsan"
fi
if has pkg-config; then with_pkg=1; else with_pkg=""; lacks "rothelduf.pc, for want of pkg-config"; fi
tools="cxx=$with_cxx cargo=$with_cargo sanitizers=$sanitizers pkg-config=$with_pkg"

sum=$( (echo "$tools" && cc --version && cd "$top" && scripts/gate/clones.py sum rothelduf_c && git ls-files -z --cached --others --exclude-standard bindings include examples bench/clang bench/gcc bench/dwz scripts |
    xargs -0 cat && cat "$program") | sha256sum | cut -d ' ' -f 1)
if "$top/scripts/gate/kept.py" show bindings "$sum"; then
    exit 0
fi

judge() {
    what=$1
    shift
    if "$@" > "$room/said" 2>&1; then
        passed=$((passed + 1))
    else
        failed=$((failed + 1))
        echo "bindings.sh: $what failed"
        tail -n 20 "$room/said"
    fi
}

# ---- the library

clone=$room/clone
words=$("$top/scripts/gate/clones.py" make --below "$clone" rothelduf_c)
if ! (cd "$clone/crates/rothelduf_c" && rt lib $words > "$room/built" 2>&1); then
    tail -n 20 "$room/built"
    echo "0 passed, 1 failed"
    exit 1
fi
"$top/scripts/c_library.sh" "$room" "$clone"
flags="-Wall -Wextra -Werror -pedantic"
library="-I$room/include -L$room/lib -lrothelduf_c"
if [ -n "$with_pkg" ]; then
    library=$(PKG_CONFIG_PATH=$room/lib/pkgconfig pkg-config --cflags --libs rothelduf)
fi

# ---- C and C++

judge "c_constants.py --check" "$top/scripts/c_constants.py" --check
judge "entries.c" cc -std=c99 -O2 $flags "$top/examples/c/entries.c" $library -Wl,-rpath,"$room/lib" -o "$room/entries"
judge "functions.c" cc -std=c99 -O2 $flags "$top/examples/c/functions.c" $library -Wl,-rpath,"$room/lib" -o "$room/functions"
[ -z "$with_cxx" ] || judge "functions.cc" c++ -std=c++17 -O2 $flags "$top/examples/c/functions.cc" $library -Wl,-rpath,"$room/lib" -o "$room/functions_cc"
judge "hostile.c" cc -std=c99 -O1 -g $sanitizers $flags -I"$room/include" "$top/examples/c/hostile.c" "$room/lib/librothelduf_c.a" \
    -Wl,--wrap=malloc,--wrap=realloc,--wrap=free -o "$room/hostile"
for name in linked types gcc clang; do
    files=""
    for section in info abbrev str line_str str_offsets; do
        from="$top/examples/$name/debug_$section"
        if [ -f "$from" ]; then cp "$from" "$room/$section"; else : > "$room/$section"; fi
        files="$files $room/$section"
    done
    judge "functions over $name" "$room/functions" $files
    cp "$room/said" "$room/by_c"
    if [ -n "$with_cxx" ]; then
        judge "functions in C++ over $name" "$room/functions_cc" $files
        cp "$room/said" "$room/by_cc"
        judge "C and C++ over $name" cmp "$room/by_c" "$room/by_cc"
    fi
    judge "entries over $name" "$room/entries" "$room/info" "$room/abbrev"
    judge "hostile over $name" "$room/hostile" 5000 $files
    cat "$room/said"
done

# ---- Rust and Python

if [ -n "$with_cargo" ]; then
    judge "the crate in bindings/rust" env ROTHELDUF_LIB="$room/lib" CARGO_TARGET_DIR="$room/rust" RUSTFLAGS="-D warnings" \
        cargo test --quiet --offline --manifest-path "$top/bindings/rust/Cargo.toml"
fi
judge "bindings.py" env ROTHELDUF="$room/lib/librothelduf_c.so" "$top/scripts/gate/bindings.py" "$program"
tail -n 1 "$room/said"
{
    printf '%s' "$left_out" | sed 's/^/bindings.sh: left out: /'
    echo "$passed passed, $failed failed"
} | tee "$room/verdict"
[ "$failed" -eq 0 ]
"$top/scripts/gate/kept.py" keep bindings "$sum" < "$room/verdict"
