#!/bin/sh
# Installs the program with its manual page and its completions, the scripts for ELF files, and the library for C, or
# takes them away.
#
# Usage: scripts/install.sh PREFIX [--uninstall]
#
# PREFIX/bin gets `dwarf` (crates/dwarf/out/dwarf, which has to be built before), `dwarf-elf` and `dwarf-audit`
# (scripts/dwarf and scripts/audit, which lie in PREFIX/libexec/rothelduf with what they need), PREFIX/share the manual
# page and the completions of bash, zsh and fish. Where crates/rothelduf_c is built (`rt lib`), PREFIX/include and
# PREFIX/lib get the library for C (scripts/c_library.sh). DESTDIR, where it is set, stands before PREFIX. What is a
# link there is replaced, and what it leads to stays as it is. With --uninstall the same files are taken away, and
# nothing else.
set -eu

here=$(cd "$(dirname "$0")/.." && pwd)
if [ $# -lt 1 ] || [ $# -gt 2 ] || [ -z "$1" ] || { [ $# -eq 2 ] && [ "$2" != --uninstall ]; }; then
    echo "usage: $0 PREFIX [--uninstall]" >&2
    exit 2
fi
prefix=${DESTDIR:+$DESTDIR/}$1

# Each file: its rights, where it is, and where it goes.
files() {
    cat << END
755 crates/dwarf/out/dwarf bin/dwarf
755 scripts/dwarf libexec/rothelduf/dwarf-elf
755 scripts/audit libexec/rothelduf/dwarf-audit
644 scripts/elf_sections.py libexec/rothelduf/elf_sections.py
644 scripts/section_names.py libexec/rothelduf/section_names.py
644 docs/dwarf.1 share/man/man1/dwarf.1
644 scripts/completions/dwarf.bash share/bash-completion/completions/dwarf
644 scripts/completions/_dwarf share/zsh/site-functions/_dwarf
644 scripts/completions/dwarf.fish share/fish/vendor_completions.d/dwarf.fish
END
}

# Each link, and where it leads, as seen from where it stands.
links() {
    cat << END
bin/dwarf-elf ../libexec/rothelduf/dwarf-elf
bin/dwarf-audit ../libexec/rothelduf/dwarf-audit
END
}

if [ $# -eq 2 ]; then
    files | while read -r _ _ to; do
        rm -f "$prefix/$to"
    done
    links | while read -r to _; do
        rm -f "$prefix/$to"
    done
    rm -f "$prefix/include/rothelduf.h" "$prefix/include/rothelduf_constants.h" "$prefix/lib/librothelduf_c.a" "$prefix/lib/librothelduf_c.so" \
        "$prefix/lib/pkgconfig/rothelduf.pc"
    # (what Python keeps of the modules, where they were run)
    for module in elf_sections section_names; do
        rm -f "$prefix/libexec/rothelduf/__pycache__/$module".*.pyc
    done
    rmdir "$prefix/libexec/rothelduf/__pycache__" "$prefix/libexec/rothelduf" 2> /dev/null || true
    exit 0
fi
if [ ! -x "$here/crates/dwarf/out/dwarf" ]; then
    echo "install.sh: the program isn't built: (cd crates/dwarf && rt run -- --help)" >&2
    exit 1
fi
files | while read -r rights from to; do
    install -d "$(dirname "$prefix/$to")"
    install -m "$rights" "$here/$from" "$prefix/$to"
done
links | while read -r to leads; do
    ln -sfn "$leads" "$prefix/$to"
done
if [ -f "$here/crates/rothelduf_c/out/librothelduf_c.a" ]; then
    "$here/scripts/c_library.sh" "$1"
fi
