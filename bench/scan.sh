#!/usr/bin/env bash
# Measures the scanner on a generated file of 8 MiB: megabytes a second of reading the file, and of scanning it. Where go is installed,
# Go's own scanner scans the same file. With --install, as root, the script first installs go from Debian's packages.
# Needs rt on the PATH, or its name in RT. Proves and builds a program in a folder that is removed at the end.
# usage: bench/scan.sh [--install]
set -euo pipefail

here=$(cd "$(dirname "$0")" && pwd)
top=$(dirname "$here")
rt=${RT:-rt}

if [ "${1:-}" = --install ]; then
  apt-get install -y golang-go
fi

crates=(base_chunks base_files go_scanner)

work=$(mktemp -d)
trap 'rm -rf "$work"' EXIT
mkdir -p "$work/crates"
for crate in "${crates[@]}"; do
  cp -a "$top/crates/$crate" "$work/crates/$crate"
done
mkdir -p "$work/crates/scan_bench/src"
cp "$here/scan_bench.txt" "$work/crates/scan_bench/src/main.rt"
for crate in "${crates[@]}"; do
  grep "^$crate:" "$top/crates.txt"
done > "$work/crates.txt"
echo 'scan_bench: go_scanner base_files' >> "$work/crates.txt"

awk 'BEGIN {
  size = 0
  line = "package generated\n"
  while (size < 8 * 1024 * 1024) {
    printf "%s", line
    size += length(line)
    n++
    line = sprintf("\n// sum%d adds up the values below a limit.\nfunc sum%d(values []int, limit int) int {\n\ttotal := 0 // so far\n\tfor i := 0; i < len(values) && i <= limit; i++ {\n\t\tif values[i]%%2 == 0 || values[i] >= 0x_%x {\n\t\t\ttotal += values[i] * %d\n\t\t} else {\n\t\t\tprintln(\"left out\\t%d\", `raw`, values[i]-1)\n\t\t}\n\t}\n\treturn total /* all of them */\n}\n", n, n, n, n, n)
  }
}' > "$work/source.go"

rates() {
  awk '{
    read_rate = $2 / $3; rate = $2 / $4
    if (read_rate > best_read) best_read = read_rate
    if (rate > best) best = rate
    tokens = $5
  } END { printf "  reading %8.1f MB/s\n  scanning %7.1f MB/s, %d tokens\n", best_read, best, tokens }'
}

echo "go_scanner:"
program="$work/crates/scan_bench/out/scan_bench"
(cd "$work/crates/scan_bench" && "$rt" run > "$work/log" 2>&1) || [ -x "$program" ] || { cat "$work/log" >&2; exit 1; }
(cd "$work" && "$program") | rates

if command -v go > "$work/go-path"; then
  echo "go/scanner:"
  cp "$here/beside_scanner/main.go" "$work/main.go"
  (cd "$work" && GO111MODULE=off GOCACHE="$work/go-cache" go run "$work/main.go") | rates
else
  echo "go/scanner: skipped, since go is not installed"
fi
