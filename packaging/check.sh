#!/usr/bin/env bash
# Says which commands and options of the program's own help are missing in the man page or in a shell's completions, and what
# an operator relies on is missing in the unit, the composed image or the examples. Its last line is `N passed, M failed`; its
# status is 1 where M isn't 0.
#
#   packaging/check.sh [PROGRAM]   by default crates/bracha/out/bracha, which `rt run` makes in crates/bracha
set -euo pipefail
cd "$(dirname "$0")/.."
program=${1:-crates/bracha/out/bracha}
passed=0
failed=0

# Whether a file has a word, of which a man page writes a hyphen as \-.
has() {
    if grep -qwF -e "$2" <(sed 's/\\-/-/g' "$1"); then
        passed=$((passed + 1))
    else
        echo "$1 lacks $2"
        failed=$((failed + 1))
    fi
}

# The options that a help explains, but --help.
options_of() {
    sed -n 's/^ *\(-[a-zA-Z], \)\{0,1\}\(--[a-z-]*\).*/\2/p' | grep -v -x -e --help || true
}

commands=$("$program" --help | sed -n '/^Commands:/,/^$/s/^  \([a-z-]*\).*/\1/p')
[ -n "$commands" ] || { echo "$program names no commands"; exit 1; }
for command in $commands; do
    for file in packaging/bracha.1 packaging/completions/*; do
        has "$file" "$command"
    done
    [ "$command" != help ] || continue
    options=$("$program" "$command" --help | options_of)
    [ -n "$options" ] || { echo "$program $command explains no options"; exit 1; }
    for option in $options; do
        has packaging/bracha.1 "$option"
        has packaging/completions/bracha.bash "$option"
        has packaging/completions/_bracha "$option"
        has packaging/completions/bracha.fish "-l ${option#--}"
    done
done

for line in 'run --stay --log' --ignore-signal=XFSZ StartLimitIntervalSec=0 Restart=on-failure RestartMaxDelaySec=60 LimitNOFILE=16384 UMask=0077 PrivateUsers=yes ProtectKernelLogs=yes \
    ProtectKernelModules=yes ProtectKernelTunables=yes RestrictRealtime=yes SystemCallArchitectures=native \
    SystemCallFilter=@system-service; do
    has packaging/bracha@.service "$line"
done
for line in 'bracha gateway --listen 127.0.0.1:7180 --token' --block-signal=TERM,INT StartLimitIntervalSec=0 Restart=on-failure RestartPreventExitStatus=2 UMask=0077 PrivateUsers=yes \
    RestrictAddressFamilies=AF_INET SystemCallFilter=@system-service; do
    has packaging/bracha-gateway.service "$line"
done
if python3 -m json.tool packaging/grafana.json >/dev/null; then passed=$((passed + 1)); else failed=$((failed + 1)); fi
has packaging/compose.yaml build:
has packaging/compose.yaml healthcheck:
has packaging/compose.yaml '"status", "--ready"'
# Reads compose.yaml as YAML, if Python has a reader of it: each service is built, runs its own member over its own folder, and is
# asked at that member's desk. No engine is asked.
composed() {
    python3 - <<'END'
import re
import yaml
with open("packaging/compose.yaml") as file:
    services = yaml.safe_load(file)["services"]
for number, (name, service) in enumerate(sorted(services.items())):
    with open(f"examples/cluster/member-{number}.toml") as file:
        desk = re.search('^desk = "(.*)"', file.read(), re.M)[1]
    with open(service["build"]["dockerfile"]) as file:
        assert 'ENTRYPOINT' in file.read(), name
    assert name == f"member-{number}" and service["build"]["context"] == "..", name
    assert service["volumes"] == [f"../data-{number}:/data"], name
    assert service["command"] == ["run", "--stay", "--log", f"/data/member-{number}.toml"], name
    assert service["healthcheck"]["test"] == ["CMD", "bracha", "status", "--ready", desk], name
    assert service["restart"] == "unless-stopped" and service["network_mode"] == "host", name
assert len(services) == 4
END
}
if python3 -c 'import yaml' 2>/dev/null; then
    if composed; then passed=$((passed + 1)); else failed=$((failed + 1)); fi
else
    echo 'packaging/compose.yaml: not read, since python3 has no yaml'
fi
has .dockerignore '!crates/bracha/out/bracha'
has packaging/bracha.1 '.SH FILES'
has packaging/bracha.1 '.SH SEE ALSO'

# Whether what is installed and shown lacks something.
lacks() {
    if grep -rnE -e "$1" README.md docs examples packaging/bracha* packaging/compose.yaml packaging/completions; then
        echo "that has no place there: $1"
        failed=$((failed + 1))
    else
        passed=$((passed + 1))
    fi
}

# A port that the system gives to outgoing connections, a file below /tmp by a name that can be guessed, a tool that isn't everywhere.
lacks '(127\.0\.0\.1|localhost):(3[2-9]|[4-6][0-9])[0-9]{3}'
lacks '[ ">=]/tmp/'
lacks xxd

# A page with a stale hash is blank in a browser.
if said=$(tools/pages --check); then
    passed=$((passed + 1))
else
    echo "$said"
    failed=$((failed + 1))
fi

# One version, wherever one is named.
if said=$(tools/release "$program"); then
    passed=$((passed + 1))
else
    echo "$said"
    failed=$((failed + 1))
fi
echo "$passed passed, $failed failed"
[ "$failed" = 0 ]
