#!/bin/sh
# Many cuts: power lost before every store of long logs (cuts.c), nine tenths of them on the small chip. Needs the library: `make library`.
# usage: many.sh [CUTS [SEED]]        10,000,000 cuts from seed 1 if nothing is said
set -eu
cd "$(dirname "$0")/../.."
cuts=${1:-10000000} seed=${2:-1}
eval "$(make -s --no-print-directory settings)"
program=$(dirname "$LIBRARY")/cuts
# shellcheck disable=SC2086
$CC -std=c99 -O2 $LINK tests/nand/cuts.c tests/nand/log.c examples/simulated.c c/nand.c "$LIBRARY" -o "$program"
$RUN "$program" 0 $((cuts - cuts / 10)) "$seed"
$RUN "$program" 1 $((cuts / 10)) "$seed"
