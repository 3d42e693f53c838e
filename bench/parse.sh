#!/usr/bin/env bash
# Measures the parser on generated files of 20,000 and 200,000 lines: lines a second, the scan included, and the most memory for each
# byte of source. Where go is installed, Go's own parser parses the same files.
# Needs rt on the PATH, or its name in RT. Proves and builds a program in a folder that is removed at the end.
# usage: bench/parse.sh
set -euo pipefail

here=$(cd "$(dirname "$0")" && pwd)
top=$(dirname "$here")
rt=${RT:-rt}

crates=(base_chunks base_files go_scanner go_ast go_parser)

work=$(mktemp -d)
trap 'rm -rf "$work"' EXIT
mkdir -p "$work/crates"
for crate in "${crates[@]}"; do
  cp -a "$top/crates/$crate" "$work/crates/$crate"
done
mkdir -p "$work/crates/parse_bench/src"
cp "$here/parse_bench.txt" "$work/crates/parse_bench/src/main.rt"
for crate in "${crates[@]}"; do
  grep "^$crate:" "$top/crates.txt"
done > "$work/crates.txt"
echo 'parse_bench: go_parser go_scanner base_files' >> "$work/crates.txt"

program="$work/crates/parse_bench/out/parse_bench"
(cd "$work/crates/parse_bench" && "$rt" run > "$work/log" 2>&1) || [ -x "$program" ] || { cat "$work/log" >&2; exit 1; }

best() {
  awk -v lines="$1" '{
    micros = $3 + $4; if (least == 0 || micros < least) least = micros
    parsed = $5
  } END { printf "  %s: %9.0f lines/s (parsed: %s)\n", $1, lines / (least / 1000000), parsed }'
}

for functions in 2000 20000; do
  awk -v count="$functions" 'BEGIN {
    printf "package generated\n"
    for (n = 1; n <= count; n++)
      printf "\nfunc sum%d(values []int, limit int) int {\n\ttotal := 0\n\tfor i := 0; i < len(values) && i <= limit; i++ {\n\t\tif values[i]%%2 == 0 || values[i] >= %d {\n\t\t\ttotal += values[i] * %d\n\t\t}\n\t}\n\treturn total\n}\n", n, n, n
  }' > "$work/source.go"
  lines=$(wc -l < "$work/source.go")
  size=$(wc -c < "$work/source.go")
  echo "$lines lines, $size bytes:"
  (cd "$work" && /usr/bin/env time -f %M -o "$work/peak" "$program" 2> /dev/null || "$program") | best "$lines"
  if [ -s "$work/peak" ]; then
    awk -v size="$size" '{ printf "  peak memory: %.1f times the source\n", $1 * 1024 / size }' "$work/peak"
  fi
  if command -v go > "$work/go-path"; then
    cp "$here/beside_parser/main.go" "$work/main.go"
    (cd "$work" && GO111MODULE=off GOCACHE="$work/go-cache" go run "$work/main.go") | best "$lines"
  else
    echo "  go/parser: skipped, since go is not installed"
  fi
done
