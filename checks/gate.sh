#!/usr/bin/env bash
# The gate: proves every crate and its tests from nothing, tries the must-fail edits, and runs each program and test.
# It prints of each crate when it was proved, and before its last line when each proof ended and how long the whole took.
set -u
cd "$(dirname "$0")/.."
python3 -B -m checks.gate.memory || exit
python3 -B -m checks.gate.bounds || exit
python3 -B -m checks.gate.names || exit
export PYTHONUNBUFFERED=1
SECONDS=0
passed() { printf '%d:%02d' $((SECONDS / 60)) $((SECONDS % 60)); }
python3 -B -m checks.gate.gate | {
    while IFS= read -r line; do
        [ -z "${last+set}" ] || printf '%s\n' "$last"
        last=$line
        case $line in
            'rt: '*' proved') what=${line#rt: }; what=${what% proved} ;;
            'rt: '*': trying its must-fail edits'*) what="${line#rt: }"; what="${what%%:*}: its edits begin" ;;
            *) continue ;;
        esac
        last="$line (at $(passed))"
        ends="${ends-}${ends+, }${what/: its tests are/: its tests} $(passed)"
    done
    echo "ended at: ${ends-}"
    echo "whole time: $(passed), on $(nproc) processors"
    printf '%s\n' "${last-}"
}
exit "${PIPESTATUS[0]}"
