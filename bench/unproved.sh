#!/usr/bin/env bash
# bench/unproved.sh PROGRAM
#
# Makes bracha of this tree without a proof, optimized like the proved program, and puts it at PROGRAM: some four minutes in
# place of an hour, to compare variants (bench/open.py --n N PROGRAM, bench/table.py), in turns with one made the same way.
# bench/unproved.py takes the checks of `rt try` out: an event takes about a tenth more instructions than in the proved program.
# Needs root, since it puts a compiler of its own in front of the kit's, in a mount namespace of its own.
set -euo pipefail

[ $# = 1 ] || { sed -n '2,7s/^# \{0,1\}//p' "$0" >&2; exit 2; }
program=$(realpath -m "$1")
bench=$(dirname "$(realpath "$0")")
crate=$(realpath "$bench/../crates/bracha")
kit=$(dirname "$(dirname "$(realpath "$(command -v rt)")")")/toolchain/bin
room=$(mktemp -d)
trap 'rm -rf "$room"' EXIT
mkdir "$room/own" "$room/kit"

# A module is compiled with -O3 and without a sanitizer, once its checks are out; the program that is linked is kept.
cat > "$room/own/clang" <<END
#!/bin/bash
set -e
words=()
for word in "\$@"; do
    case \$word in -O0) words+=(-O3) ;; -fsanitize=address) ;; module.bc)
        $room/kit/clang -x ir module.bc -S -emit-llvm -O0 -Xclang -disable-llvm-passes -o $room/module.ll
        $bench/unproved.py $(dirname "$crate") < $room/module.ll > $room/plain.ll
        words+=($room/plain.ll) ;;
    *) words+=("\$word") ;; esac
done
exec $room/kit/clang "\${words[@]}"
END
cat > "$room/own/ld.lld" <<END
#!/bin/bash
words=()
while [ \$# -gt 0 ]; do
    case \$1 in --whole-archive) shift 2 ;; *) words+=("\$1") ;; esac
    shift
done
$room/kit/ld.lld "\${words[@]}" && /bin/cp program "$room/program"
END
chmod +x "$room"/own/*
for other in "$kit"/*; do
    name=$(basename "$other")
    [ -e "$room/own/$name" ] || ln -s "$room/kit/$name" "$room/own/$name"
done

unshare --mount bash -euo pipefail -c '
    mount --bind "$1" "$2/kit"
    mount --bind "$2/own" "$1"
    cd "$3"
    rt try -- --version >&2' bash "$kit" "$room" "$crate"
cp "$room/program" "$program"
