#!/bin/sh
# Builds the plain programs, and measures the built program beside them: benches/measure.sh [RUNS]
set -e
cd "$(dirname "$0")/.."
plain=$(mktemp -d)
trap 'rm -rf "$plain"' EXIT
for program in plain_plan plain_world; do
    rustc --edition 2024 -O -o "$plain/$program" "benches/$program.rs"
done
uptime
python3 benches/measure.py "$plain" "$@"
