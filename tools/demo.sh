#!/usr/bin/env bash
# Prints the requests of a real log that took more than 0.3 seconds, each with its fetches, by an unproved build that is
# thrown away. On standard error it says what it waits for, and nothing of the build itself unless it fails.
set -euo pipefail
cd "$(dirname "${BASH_SOURCE[0]}")/../crates/vtools"

words="varnishlog -g request -q 'Timestamp:Resp[2] > 0.3' -i ReqURL,FetchError -I 'Timestamp:^(Resp|Beresp):' -r"
log=examples/real-1.vslog
command -v rt >/dev/null || {
    echo "demo: the toolchain's rt is not on the path" >&2
    exit 1
}
echo "demo: building vtools without a proof takes one or two minutes, more where others work; then it runs" >&2
echo "demo: vtools $words $log" >&2

messages=$(mktemp)
trap 'rm -f "$messages"' EXIT
xargs rt try --data "log=../../$log" -- <<<"$words log" 2>"$messages" || {
    cat "$messages" >&2
    exit 1
}
