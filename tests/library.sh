#!/usr/bin/env bash
# Tests the C library and its bindings as their users have them: builds the library by packaging/library.sh, installs it, and
# - compiles the header as C and as C++, and the programs of bindings/c against both libraries, and runs them;
# - compares header, bindings and versions (tests/library/declarations.py);
# - runs the tests of the Rust crate (also those in its documentation) and its examples, and those of the Python package;
# - compares with independent references (tests/library/reference.py says with which);
# - refuses each request for memory in turn (refused.c), calls everything with bytes of chance for 20 seconds (fuzz.c), and looks for
#   leaks and reads of nothing with valgrind;
# - runs each binding with a library of another interface: it must say so;
# - has three processes of `bracha run` and a member built from the library decide together, in both versions of the wire (interop.py).
#
#   tests/library.sh [PROGRAM]   by default crates/bracha/out/bracha, which `rt run` makes in crates/bracha
#
# The archive is what packaging/library.sh takes (BRACHA_ARCHIVE names another). It takes two minutes on two cores, no network but
# 127.0.0.1, and no registry of packages. A tool that is missing is named and its tests are left out, unless CI is set in the
# environment: then it fails. The last line is `N passed, M failed`; the status is 1 where M isn't 0.
set -euo pipefail
cd "$(dirname "$0")/.."
top=$PWD
program=$(realpath -m "${1:-crates/bracha/out/bracha}")
room=$(mktemp -d)
fuzzer=
trap '[ -z "$fuzzer" ] || kill "$fuzzer" 2>/dev/null || true; rm -rf "$room"' EXIT
passed=0
failed=0
out=$room/library
export PYTHONDONTWRITEBYTECODE=1 PYTHONPATH=$top/bindings/python CARGO_TARGET_DIR=$room/target CARGO_NET_OFFLINE=true
export BRACHA_LIBRARY_DIR=$out/lib BRACHA_LIBRARY=$out/lib/libbracha.so.0 LD_LIBRARY_PATH=$out/lib PKG_CONFIG_PATH=$out/lib/pkgconfig

pass() { passed=$((passed + 1)); }

# fails WHAT SAID: counts a failure, and shows the end of what was said.
fails() {
    failed=$((failed + 1))
    echo "$1 failed:"
    tail -n 15 <<<"$2"
}

# does WHAT COMMAND..: whether the command ends with status 0.
does() {
    local said
    if said=$("${@:2}" 2>&1 </dev/null); then pass; else fails "$1" "$said"; fi
}

# says WHAT STATUS TEXT COMMAND..: whether the command ends with this status and says a line with this text.
says() {
    local said status=0
    said=$("${@:4}" 2>&1 </dev/null) || status=$?
    if [ "$status" = "$2" ] && grep -qF -e "$3" <<<"$said"; then pass; else fails "$1 (status $status)" "$said"; fi
}

# counts WHAT COMMAND..: adds the command's own `N passed, M failed`, its last line; shows the lines before it if it fails.
counts() {
    local said last
    said=$("${@:2}" 2>&1 </dev/null) || true
    last=$(tail -n 1 <<<"$said")
    if [[ $last =~ ^([0-9]+)\ passed,\ ([0-9]+)\ failed$ ]]; then
        passed=$((passed + BASH_REMATCH[1]))
        failed=$((failed + BASH_REMATCH[2]))
        [ "${BASH_REMATCH[2]}" = 0 ] || head -n 30 <<<"$said"
    else
        fails "$1" "$said"
    fi
}

# has TOOL: whether it is there. One that is missing is named once, and a failure in CI.
missing=
has() {
    if command -v "$1" >/dev/null; then return 0; fi
    case $missing in *" $1 "*) return 1 ;; esac
    missing="$missing $1 "
    echo "$1 is missing: its tests are left out"
    [ -z "${CI-}" ] || failed=$((failed + 1))
    return 1
}

library_tests() {
    does 'packaging/library.sh' packaging/library.sh "$out"
    [ -f "$out/lib/libbracha.a" ] || { echo "$passed passed, $failed failed"; exit 1; }
    does 'install.sh --library' env DESTDIR="$room/dest" BRACHA_LIBRARY_OUT="$out" examples/install.sh --library /usr
    does 'what is installed' diff -r "$out" "$room/dest/usr"
    does 'install.sh --uninstall --library' env DESTDIR="$room/dest" examples/install.sh --uninstall --library /usr
    does 'nothing is left of it' bash -c '[ -z "$(find "$1" -type f -o -type l)" ]' - "$room/dest"
    if has dpkg-deb; then
        does 'deb.sh --library' packaging/deb.sh --library "$out" "$room"
        does 'what is packed' bash -c 'dpkg-deb -x "$1"/libbracha-dev_*.deb "$1/deb" && rm -r "$1/deb/usr/share" && diff -r "$2" "$1/deb/usr"' - "$room" "$out"
    fi
}

header_tests() {
    local compiler
    echo '#include <bracha.h>' >"$room/header.c"
    for compiler in gcc clang; do
        if has "$compiler"; then
            does "the header as C11 by $compiler" "$compiler" -std=c11 -Wall -Wextra -Wpedantic -Werror -I"$out/include" -fsyntax-only "$room/header.c"
        fi
    done
    for compiler in g++ clang++; do
        if has "$compiler"; then
            does "the header as C++ by $compiler" "$compiler" -std=c++11 -Wall -Wextra -Wpedantic -Werror -I"$out/include" -fsyntax-only -x c++ "$room/header.c"
        fi
    done
}

# Builds NAME of bindings/c against the shared library, as NAME, and the static one, as NAME-static.
c_program() {
    local flags
    if has pkg-config; then flags=$(pkg-config --cflags --libs bracha); else flags="-I$out/include -L$out/lib -lbracha"; fi
    # shellcheck disable=SC2086
    does "$1.c" "${CC:-cc}" -std=c11 -O2 -Wall -Wextra -Wpedantic -Werror "bindings/c/$1.c" $flags -o "$room/$1"
    does "$1.c, statically" "${CC:-cc}" -std=c11 -O2 -I"$out/include" "bindings/c/$1.c" "$out/lib/libbracha.a" -o "$room/$1-static"
}

c_tests() {
    local kind seed
    for name in first cluster rate; do c_program "$name"; done
    if has g++; then
        does 'first.c as C++' g++ -std=c++11 -Wall -Wextra -Werror -I"$out/include" -x c++ bindings/c/first.c -x none "$out/lib/libbracha.a" -o "$room/first-c++"
        says 'first as C++' 0 'so send to all the frame 00080302000000010101' "$room/first-c++"
    fi
    for kind in '' -static; do
        says "first$kind" 0 'so send to all the frame 00080302000000010101' "$room/first$kind"
        for seed in 1 2 3; do says "cluster$kind $seed" 0 '16 questions decided alike' "$room/cluster$kind" "$seed" 16; done
        says "rate$kind" 0 'million a second' "$room/rate$kind" 0.2
    done
}

crate=(--offline --locked -q --manifest-path bindings/rust/Cargo.toml)

# crate COMMAND..: has cargo do it with the crate of bindings/rust.
crate() { cargo "$1" "${crate[@]}" "${@:2}"; }

rust_tests() {
    does 'the crate without std' crate build --no-default-features
    says 'cargo test' 0 'test result: ok' crate test
    does 'cargo doc' env RUSTDOCFLAGS=-Dwarnings cargo doc "${crate[@]}" --no-deps
    does 'the examples' crate build --examples
    says 'first of Rust' 0 'as the frame 00080302000000010101' "$room/target/debug/examples/first"
    for seed in 1 2 3; do says "cluster $seed of Rust" 0 '16 questions decided alike' "$room/target/debug/examples/cluster" "$seed" 16; done
}

python_tests() {
    local python=(python3 -W error)
    does 'the tests of Python' "${python[@]}" -m unittest discover -q -s bindings/python/tests
    says 'first.py' 0 'so send to all the frame 00080302000000010101' "${python[@]}" bindings/python/examples/first.py
    for seed in 1 2; do says "cluster.py $seed" 0 '8 questions decided alike' "${python[@]}" bindings/python/examples/cluster.py "$seed" 8; done
    counts reference.py "${python[@]}" tests/library/reference.py
    if python3 -m pip --version >/dev/null 2>&1; then
        does 'pip install' python3 -m pip install -q --disable-pip-version-check --no-index --no-deps --target "$room/site" bindings/python
        does 'what pip installed' env -C "$room" PYTHONPATH="$room/site" python3 -c 'import bracha_core; bracha_core.Core((4, 1, 1), 0)'
    else
        has 'pip of python3' || true
    fi
}

# Each binding with a library of another interface.
other_abi_tests() {
    local other=$room/other.so said='has interface 2, and this'
    "${CC:-cc}" -shared -fPIC -o "$other" tests/library/other_abi.c
    says 'first with another interface' 1 "$said" env LD_PRELOAD="$other" "$room/first"
    if has python3; then says 'Python with another interface' 1 "$said" env BRACHA_LIBRARY="$other" python3 -c 'import bracha_core'; fi
    if has cargo; then
        does 'first.rs, dynamically' env BRACHA_LINK=dynamic CARGO_TARGET_DIR="$room/dynamic" cargo build "${crate[@]}" --example first
        says 'first of Rust, dynamically' 0 'as the frame' "$room/dynamic/debug/examples/first"
        says 'Rust with another interface' 1 'OtherAbi(2)' env LD_PRELOAD="$other" "$room/dynamic/debug/examples/first"
    fi
}

# Starts the fuzzer, which ends after 20 seconds.
start_fuzzer() {
    local from=(-g -O2 -I"$out/include" tests/library/fuzz.c "$out/lib/libbracha.a")
    mkdir "$room/corpus"
    if command -v clang >/dev/null && clang -fsanitize=fuzzer,address "${from[@]}" -o "$room/fuzz" 2>"$room/fuzz-build"; then
        ASAN_OPTIONS=quarantine_size_mb=4 "$room/fuzz" -max_total_time=20 -seed=1 -len_control=0 -max_len=4096 -timeout=60 \
            -artifact_prefix="$room/" -print_final_stats=1 "$room/corpus" >"$room/fuzz-said" 2>&1 &
    else
        echo 'there is no libFuzzer of clang: fuzz.c makes the bytes itself'
        "${CC:-cc}" -fsanitize=address -DALONE "${from[@]}" -o "$room/fuzz" && "$room/fuzz" 20 1 >"$room/fuzz-said" 2>&1 &
    fi
    fuzzer=$!
}

end_fuzzer() {
    if wait "$fuzzer"; then
        pass
    else
        fails fuzz.c "$(grep -a -h -e 'not so' -e ERROR -e '^    #' -e SUMMARY -e Base64 "$room/fuzz-said" "$room/fuzz-build" 2>&1)"
    fi
    fuzzer=
    grep -h -e 'number_of_executed_units' -e ' runs, ' "$room/fuzz-said" || true
}

memory_tests() {
    does refused.c "${CC:-cc}" -std=c11 -O1 -g -I"$out/include" tests/library/refused.c "$out/lib/libbracha.a" -o "$room/refused"
    says 'refused memory' 0 'every refusal was answered BRACHA_MEMORY' "$room/refused"
    if has valgrind; then
        local valgrind=(valgrind -q --error-exitcode=9 --leak-check=full --show-leak-kinds=all)
        does 'fuzz.c without a sanitizer' "${CC:-cc}" -std=c11 -O1 -g -DALONE -I"$out/include" tests/library/fuzz.c "$out/lib/libbracha.a" -o "$room/alone"
        does 'first under valgrind' "${valgrind[@]}" "$room/first"
        does 'cluster under valgrind' "${valgrind[@]}" "$room/cluster" 1 2
        does 'fuzz.c under valgrind' "${valgrind[@]}" "$room/alone" 3 7
    fi
}

interop_tests() {
    local wire
    if [ ! -x "$program" ]; then
        has "$program" || true
        return
    fi
    for wire in 1 2; do counts "interop.py $wire" python3 tests/library/interop.py "$program" "$room/target/debug/examples/member" "$wire"; done
}

library_tests
start_fuzzer
header_tests
c_tests
if has cargo; then rust_tests; fi
if has python3; then
    counts declarations.py python3 tests/library/declarations.py
    python_tests
fi
other_abi_tests
memory_tests
if has cargo && has python3; then interop_tests; fi
end_fuzzer
echo "$passed passed, $failed failed"
[ "$failed" = 0 ]
