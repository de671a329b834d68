#!/usr/bin/env bash
# Tests the client libraries as their users have them, against clusters of four members that run:
# - the tests of clients/python, and of what pip installs of it;
# - the tests of clients/rust, its documentation, and clippy;
# - both examples that BUILDING describes, examples/commit/ and examples/ledger/, which runs over a chain too.
#
#   tests/clients.sh [PROGRAM]   by default crates/bracha/out/bracha, which `rt run` makes in crates/bracha
#
# It takes three minutes on two cores, no network but 127.0.0.1, ports below 32768 that are free, and no registry of packages. A tool that
# is missing is named and its tests are left out, unless CI is set in the environment: then it fails. The last line is
# `N passed, M failed`; the status is 1 where M isn't 0.
set -euo pipefail
cd "$(dirname "$0")/.."
program=$(realpath -m "${1:-crates/bracha/out/bracha}")
room=$(mktemp -d)
trap 'rm -rf "$room"' EXIT
passed=0
failed=0
export BRACHA=$program TMPDIR=$room PYTHONDONTWRITEBYTECODE=1 CARGO_TARGET_DIR=$room/target CARGO_NET_OFFLINE=true

# fails WHAT SAID: counts a failure, and shows the end of what was said.
fails() {
    failed=$((failed + 1))
    echo "$1 failed:"
    tail -n 30 <<<"$2"
}

# does WHAT COMMAND..: whether the command ends with status 0 in time.
does() {
    local said
    if said=$(timeout 120 "${@:2}" 2>&1 </dev/null); then passed=$((passed + 1)); else fails "$1" "$said"; fi
}

# counts WHAT PATTERN COMMAND..: adds how many tests passed, which the pattern finds in what is said; one failure if any failed.
counts() {
    local said count
    if said=$(timeout 300 "${@:3}" 2>&1 </dev/null); then
        count=$(grep -oE "$2" <<<"$said" | grep -oE '[0-9]+' | awk '{ sum += $1 } END { print sum + 0 }')
        if [ "$count" = 0 ]; then fails "$1: no tests" "$said"; else passed=$((passed + count)); fi
        if grep -q skipped <<<"$said"; then fails "$1: tests were left out" "$said"; fi
    else
        fails "$1" "$said"
    fi
}

# has TOOL: whether it is there. One that is missing is named once, and a failure in CI.
missing=
has() {
    if command -v "$1" >/dev/null; then return 0; fi
    case $missing in *" $1 "*) return 1 ;; esac
    missing="$missing $1 "
    echo "$1 is missing: its tests are left out"
    [ -z "${CI-}" ] || failed=$((failed + 1))
    return 1
}

python_tests() {
    counts 'the tests of Python' 'Ran [0-9]+ tests' env -C clients/python python3 -W error -m unittest discover -t . -s tests
    if python3 -m pip --version >/dev/null 2>&1; then
        local pip=(python3 -m pip install -q --disable-pip-version-check --root-user-action ignore --no-index --no-deps)
        does 'pip install' "${pip[@]}" --target "$room/site" clients/python
        does 'what pip installed' env -C "$room" PYTHONPATH="$room/site" python3 -c 'import bracha; bracha.Reading(4, 1).take(3, True)'
    else
        has 'pip of python3' || true
    fi
}

rust_tests() {
    local crate=(--offline --locked -q --manifest-path clients/rust/Cargo.toml)
    counts 'the tests of Rust' 'ok\. [0-9]+ passed' cargo test "${crate[@]}"
    does 'cargo doc' env RUSTDOCFLAGS=-Dwarnings cargo doc "${crate[@]}" --no-deps
    if has cargo-clippy; then does 'clippy' cargo clippy "${crate[@]}" --all-targets -- -D warnings; fi
    if has rustfmt; then does 'the layout of Rust' cargo fmt --check --manifest-path clients/rust/Cargo.toml; fi
}

if [ ! -x "$program" ]; then
    echo "there is no program $program: make it by (cd crates/bracha && rt run -- --version)" >&2
    echo '0 passed, 1 failed'
    exit 1
fi
if has python3; then
    python_tests
    does 'examples/commit/run.sh' examples/commit/run.sh "$program"
    does 'examples/ledger/run.sh' examples/ledger/run.sh "$program"
    does 'examples/ledger/run.sh --epochs' examples/ledger/run.sh --epochs "$program"
fi
if has cargo; then rust_tests; fi
echo "$passed passed, $failed failed"
[ "$failed" = 0 ]
