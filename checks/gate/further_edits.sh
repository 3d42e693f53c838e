#!/usr/bin/env bash
# Has the prover try the further edits of crates, crates/NAME/further-edits/*.edit, which the gate leaves out:
#     checks/gate/further_edits.sh [CRATE..]
# With no name it tries those of each crate that has some. It works on a copy of the tree, which is removed at the end or
# when the run is interrupted. Libraries that earlier checks of this clone built are used. It prints which edits the prover
# refused, and ends with status 0 where it refused all of them.
set -euo pipefail
cd "$(dirname "$0")/../.."
if [ $# -eq 0 ]; then
    set -- $(find crates -path 'crates/*/further-edits/*.edit' | cut -d/ -f2 | sort -u)
fi
copy=$(mktemp -d)
trap 'rm -rf "$copy"' EXIT
trap 'exit 130' INT TERM HUP
git ls-files -co --exclude-standard -z checks crates crates.txt HANDLES | while IFS= read -r -d '' file; do
    [ ! -e "$file" ] || printf '%s\0' "$file"
done | xargs -0 cp --parents -t "$copy"
for kept in crates/*/out/rlib; do
    [ ! -d "$kept" ] || { mkdir -p "$copy/${kept%/rlib}" && cp -r "$kept" "$copy/$kept"; }
done
cd "$copy"
failed=0
for crate in "$@"; do
    if ! compgen -G "crates/$crate/further-edits/*.edit" > /dev/null; then
        echo "$crate: no edits in further-edits" >&2
        failed=1
        continue
    fi
    python3 -B -m checks.gate.further_edits "$crate" || failed=1
done
exit "$failed"
