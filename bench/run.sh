#!/usr/bin/env bash
# Builds and runs both benchmark programs and prints their times side by side.
#
#     bash bench/run.sh
#
# It proves and builds the library that is measured, and installs SuiteSparse where it is missing.
set -euo pipefail

source=$(realpath "$(dirname "$0")")
[ -f /usr/include/suitesparse/amd.h ] || { apt-get update && apt-get install -y libsuitesparse-dev; }
(cd "$source/../crates/bench_plan" && rt lib >/dev/null)
library=$source/../crates/bench_plan/out/libbench_plan.a
runtime=$(dirname "$(rt doc)")/c/liblibc_c.a
work=$(mktemp -d)
trap 'rm -r "$work"' EXIT
cd "$work"

compile() {
    cc -std=c11 -D_POSIX_C_SOURCE=200809L -O2 -Wall -Wextra "$@"
}

compile -o plan "$source/plan.c" "$library" "$runtime"
compile -o amd "$source/amd.c" -lamd -lldl -lsuitesparseconfig
mkdir sheets
python3 "$source/patterns.py" sheets
cd sheets

row='%-8s %5s %6s %6s %10s %12s %6s %7s\n'
printf "$row" pattern n links P 'ours ns' 'AMD+LDL ns' ratio 'nnz(L)'
for pattern in grid chain tree random; do
    read -r _ places ours < <(../plan "$pattern")
    read -r _ n links entries theirs < <(../amd "$pattern")
    ratio=$(awk "BEGIN { printf \"%.2f\", $ours / $theirs }")
    printf "$row" "$pattern" "$n" "$links" "$places" "$ours" "$theirs" "$ratio" "$entries"
done
