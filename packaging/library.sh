#!/usr/bin/env bash
# Builds the C library of include/bracha.h, with which other programs embed a member's core (docs/EMBEDDING.md).
#
#   packaging/library.sh [OUTDIR]   by default out/library at the top
#
# Below OUTDIR it puts include/bracha.h, lib/libbracha.a, lib/libbracha.so.0 (and the link libbracha.so) and lib/pkgconfig/bracha.pc,
# and prints these paths. Each of the two libraries is complete: it wants malloc, realloc, free and four functions for bytes of the C
# library, and nothing else; and of its own it shows the functions of the header alone. Both are looked at by nm, and the status is 1
# if that isn't so. `PKG_CONFIG_PATH=OUTDIR/lib/pkgconfig pkg-config --cflags --libs bracha` names the flags; the folder may be moved.
#
# The archive is crates/bracha_c/out/libbracha_c.a, which `rt lib` proves and builds (many minutes) if it isn't there, or is older than a
# source of a crate. BRACHA_ARCHIVE names another, and BRACHA_HEAP the toolchain's heap, else liblibc_c.a of the kit of `rt`. Wants a C compiler, ld, nm, objcopy and ar
# (CC, LD, NM, OBJCOPY, AR).
set -euo pipefail
out=$(realpath -m "${1:-"$(dirname "$0")/../out/library"}")
cd "$(dirname "$0")/.."
archive=${BRACHA_ARCHIVE:-crates/bracha_c/out/libbracha_c.a}
room=$(mktemp -d)
trap 'rm -rf "$room"' EXIT

# The folder of the toolchain's kit.
kit() {
    local program
    program=$(readlink -f "$(command -v rt)") || { echo 'there is no rt on the path: name the heap by BRACHA_HEAP' >&2; return 1; }
    dirname "$(dirname "$program")"
}
heap=${BRACHA_HEAP:-$(kit)/c/liblibc_c.a}
# Whether the archive is to be made: it isn't there, or a source was changed since.
is_wanted() {
    [ ! -f "$archive" ] || [ -n "$(find crates/*/src crates/*/specs crates/*/proofs -newer "$archive" -type f -print -quit 2>/dev/null)" ]
}
if [ -z "${BRACHA_ARCHIVE-}" ] && is_wanted; then
    (cd crates/bracha_c && rt lib) >"$room/built" 2>&1 || { tail -n 20 "$room/built" >&2; exit 1; }
fi
[ -f "$archive" ] || { echo "there is no $archive" >&2; exit 1; }
[ -f "$heap" ] || { echo "there is no $heap" >&2; exit 1; }
version=$(sed -n 's/.*\.version("\([0-9.]*\).*/\1/p' crates/command_line/src/tasks.rt)
[ -n "$version" ] || { echo 'crates/command_line/src/tasks.rt names no version' >&2; exit 1; }
rm -rf "$out/include/bracha.h" "$out"/lib/libbracha.* "$out/lib/pkgconfig/bracha.pc"
mkdir -p "$out/include" "$out/lib/pkgconfig"
install -m 644 include/bracha.h "$out/include/bracha.h"
sed "s/@VERSION@/$version/" packaging/bracha.pc.in >"$out/lib/pkgconfig/bracha.pc"

# One object of all that the archive has and of the heap, in which all but the header's functions is local. So a program may have
# other libraries of the same toolchain.
"${LD:-ld}" -r -o "$room/whole.o" --whole-archive "$archive" --no-whole-archive "$heap"
"${OBJCOPY:-objcopy}" --wildcard --keep-global-symbol='bracha_*' "$room/whole.o" "$room/bracha.o"
"${AR:-ar}" rcsD "$out/lib/libbracha.a" "$room/bracha.o"
"${CC:-cc}" -shared -o "$out/lib/libbracha.so.0" -Wl,-soname,libbracha.so.0 -Wl,--version-script,packaging/bracha.map \
    -Wl,-z,defs -Wl,-z,relro -Wl,-z,now -Wl,-z,noexecstack "$room/bracha.o"
chmod 644 "$out/lib/libbracha.a" "$out/lib/libbracha.so.0"
ln -sf libbracha.so.0 "$out/lib/libbracha.so"

# differs WHAT FOUND WANTED: ends the script unless both are the same lines.
differs() {
    [ "$2" != "$3" ] || return 0
    echo "$1:" >&2
    diff <(echo "$3") <(echo "$2") >&2 || true
    exit 1
}
declared=$(grep -o '\bbracha_[a-z_]*(' include/bracha.h | tr -d '(' | sort -u)
differs 'libbracha.a shows other names than the header declares' "$("${NM:-nm}" -gj --defined-only "$out/lib/libbracha.a" | grep -v -e ':$' -e '^$' | sort -u)" "$declared"
differs 'libbracha.so.0 shows other names than the header declares' "$("${NM:-nm}" -Dj --defined-only "$out/lib/libbracha.so.0" | sort -u)" "$declared"
wanted=$("${NM:-nm}" -uj "$out/lib/libbracha.a" | grep -v -x -e 'malloc\|realloc\|free\|memcpy\|memmove\|memset\|memcmp\|_GLOBAL_OFFSET_TABLE_\|' -e '.*:$' || true)
differs 'libbracha.a wants more of the C library' "$wanted" ''
printf '%s\n' "$out/include/bracha.h" "$out/lib/libbracha.a" "$out/lib/libbracha.so.0" "$out/lib/libbracha.so" "$out/lib/pkgconfig/bracha.pc"
