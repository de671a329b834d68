#!/bin/sh
# Puts the program, its man page and its completions into place, or takes them away again; with --library the C library in their
# place, for programs that embed a member's core (docs/EMBEDDING.md).
#
#   examples/install.sh [--uninstall] [--library] [PREFIX]
#
# PREFIX is /usr/local if it is left out. DESTDIR in the environment stands in front of every path. It prints each file that it
# puts or takes away. Settings and journals are never touched.
#
# The program is crates/bracha/out/bracha of this repository, which `rt run` makes: (cd crates/bracha && rt run -- --version).
# It is one file: copy it to a machine without the toolchain, with the folder packaging/ and this script. The library is what
# packaging/library.sh makes in out/library, or in the folder that BRACHA_LIBRARY_OUT names.
#
# Where a shell looks for completions: bash and zsh below /usr/local/share. fish looks below /usr/share and ~/.local/share, and
# into /etc/fish/completions, but below /usr/local/share only if XDG_DATA_DIRS names it. So for /usr/local its file goes to /etc.
set -eu
umask 022 # everybody can read the folders that it makes, also if root's umask is 077

here=$(cd "$(dirname "$0")/.." && pwd)
usage() {
    sed -n '5s/^# *//p' "$0" >&2
    exit 2
}
uninstall=
library=
while :; do
    case ${1-} in
    --uninstall) uninstall=yes ;;
    --library) library=yes ;;
    -*) usage ;;
    *) break ;;
    esac
    shift
done
[ $# -le 1 ] || usage
prefix=${1:-/usr/local}
while [ "$prefix" != "${prefix%/}" ]; do prefix=${prefix%/}; done
to=${DESTDIR-}$prefix
program=$here/crates/bracha/out/bracha
case $prefix in
/usr/local) fish=${DESTDIR-}/etc/fish/completions ;;
*) fish=$to/share/fish/vendor_completions.d ;;
esac
if [ -z "$uninstall" ] && [ -z "$library" ] && [ ! -x "$program" ]; then
    echo "there is no program $program: make it by (cd crates/bracha && rt run -- --version)" >&2
    exit 1
fi

# put MODE FILE PLACE: puts the file there, or takes what is there away.
put() {
    if [ -z "$uninstall" ]; then
        mkdir -p "$(dirname "$3")"
        install -m "$1" "$2" "$3"
        echo "$3"
    elif [ -e "$3" ] || [ -L "$3" ]; then
        rm "$3"
        echo "$3"
    fi
}
if [ -n "$library" ]; then
    built=${BRACHA_LIBRARY_OUT:-$here/out/library}
    if [ -z "$uninstall" ] && [ ! -f "$built/lib/libbracha.a" ]; then
        echo "there is no library in $built: make it by packaging/library.sh" >&2
        exit 1
    fi
    put 644 "$built/include/bracha.h" "$to/include/bracha.h"
    put 644 "$built/lib/libbracha.a" "$to/lib/libbracha.a"
    put 644 "$built/lib/libbracha.so.0" "$to/lib/libbracha.so.0"
    put 644 "$built/lib/pkgconfig/bracha.pc" "$to/lib/pkgconfig/bracha.pc"
    if [ -z "$uninstall" ] || [ -L "$to/lib/libbracha.so" ]; then
        rm -f "$to/lib/libbracha.so"
        echo "$to/lib/libbracha.so"
    fi
    if [ -z "$uninstall" ]; then
        ln -s libbracha.so.0 "$to/lib/libbracha.so"
        [ -n "${DESTDIR-}" ] || echo "run ldconfig once, so that programs find libbracha.so.0 in $prefix/lib" >&2
    fi
    exit 0
fi
put 755 "$program" "$to/bin/bracha"
put 644 "$here/packaging/bracha.1" "$to/share/man/man1/bracha.1"
put 644 "$here/packaging/completions/bracha.bash" "$to/share/bash-completion/completions/bracha"
put 644 "$here/packaging/completions/_bracha" "$to/share/zsh/site-functions/_bracha"
put 644 "$here/packaging/completions/bracha.fish" "$fish/bracha.fish"
# Earlier versions of this script put the file of fish where fish doesn't look.
if [ -n "$uninstall" ]; then
    put 644 none "$to/share/fish/vendor_completions.d/bracha.fish"
fi
