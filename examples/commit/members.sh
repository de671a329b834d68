# shellcheck shell=bash disable=SC2154,SC2164
# Four members of bracha on this machine, for the examples: sourced by their run.sh, with `set -euo pipefail`. It makes a folder,
# goes there, and removes it at the end. Ports are below 32768, free, and others if another process takes them meanwhile.
if [ ! -x "$program" ]; then
    echo "there is no program $program: make it by (cd crates/bracha && rt run -- --version)" >&2
    exit 1
fi
export PYTHONPATH=$top/clients/python PYTHONDONTWRITEBYTECODE=1
folder=$(mktemp -d "${TMPDIR:-/tmp}/bracha-example.XXXXXX")
cd "$folder"
declare -A process
trap 'kill -9 "${process[@]}" 2>/dev/null || true; rm -rf "$folder"' EXIT

# ends NAME: kills a process that `begins` started.
ends() {
    kill -9 "${process[$1]}" 2>/dev/null || true
    while kill -0 "${process[$1]}" 2>/dev/null; do sleep 0.01; done
    unset "process[$1]"
}

# begins NAME COMMAND..: starts a process, and waits until it says that it is ready. Its output is in NAME.out.
begins() {
    "${@:2}" >"$1.out" 2>&1 </dev/null &
    process[$1]=$!
    disown # so that the shell doesn't tell of its end
    for _ in {1..400}; do
        if grep -qsw ready "$1.out"; then return 0; fi
        if ! kill -0 "${process[$1]}" 2>/dev/null; then break; fi
        sleep 0.02
    done
    ends "$1"
    return 1
}

# member M: starts a member.
member() {
    begins "member-$1" "$program" run --stay "member-$1.toml"
}

# Returns a port below 32768 that is free, as the next three are, and the four from ten above it.
free_ports() {
    python3 - <<'END'
import random, socket
while True:
    first = random.randrange(10000, 32700)
    try:
        for port in (*range(first, first + 4), *range(first + 10, first + 14)):
            socket.create_server(("127.0.0.1", port)).close()
    except OSError:
        continue
    print(first)
    break
END
}

# members QUESTIONS: makes a cluster of four, and starts it.
members() {
    local try m
    for try in 1 2 3 4 5; do
        rm -f member-*.journal member-*.toml client.toml
        "$program" new-cluster --n 4 --t 1 --questions "$1" --cluster "$try" --port "$(free_ports)" . >/dev/null
        for m in 0 1 2 3; do
            "$program" init "member-$m.toml"
            member "$m" || break
        done
        if [ "${#process[@]}" = 4 ]; then return; fi
        for m in "${!process[@]}"; do ends "$m"; done
    done
    echo "no free ports" >&2
    exit 1
}
