#!/usr/bin/env bash
# tests/second.sh [--jobs N] [--seed S]: generated jobs, answered by the proved program `test_worker` and by the second opinion in tests/second,
# which was written from the build scope alone (its rules now stand in docs/RULES.md); whole answers are compared, byte by byte. The default
# is 10,000 jobs of seed 1. Before that the second opinion passes its own tests: the cases of RULES 16, each refusal's bounds, and facts tried
# by brute force. The program is proved and built first where that is not done yet. The exit status is 0 only if every job was compared and
# none differs. With --build alone the second opinion is only built and passes its own tests.
set -eu
cd "$(dirname "$(realpath "$0")")/.."
quietly() {
    if ! log=$("$@" 2>&1); then
        printf '%s\n' "$log" >&2
        exit 1
    fi
}
if ! command -v cargo > /dev/null && [ "$(id -u)" = 0 ]; then
    { apt-get update && apt-get install -y --no-install-recommends cargo; } > /dev/null 2>&1 || true
fi
if ! command -v cargo > /dev/null; then
    echo "$0: cargo is missing; it is in Debian's package cargo" >&2
    exit 2
fi
package=(--quiet --release --offline --locked --manifest-path tests/second/Cargo.toml --target-dir target/second)
quietly cargo test "${package[@]}"
quietly cargo build "${package[@]}"
[ "${1:-}" != --build ] || exit 0
. scripts/runner.sh
runner test_worker
exec target/second/release/second "$@" "$program"
