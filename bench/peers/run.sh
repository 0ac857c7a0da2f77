#!/usr/bin/env bash
# Runs the proved library beside its peers in one process: bench/peers/run.sh PART [TURNS], where PART is speed, worst,
# grow or stop. `bench/run peers` goes by it, and keeps the figures. It wants liburcu, TBB, libcuckoo and
# DPDK (Debian: liburcu-dev, libtbb-dev, libcuckoo-dev, libdpdk-dev). The part reopen has the library alone, and wants
# none of them.
set -eu
top="$(cd "$(dirname "$(readlink -f "$0")")/../.." && pwd)"
"$top/bin/build-library"
work="$(mktemp -d)"
trap 'rm -rf "$work"' EXIT
if [ "${1:-}" = reopen ]; then
    gcc -O2 -std=gnu11 -I"$top/include" "$top/bench/peers/reopen.c" "$top/out/library/libflowdir.a" -lpthread \
        -o "$work/reopen"
    "$work/reopen" "${@:2}"
    exit
fi
read -ra dpdk < <(pkg-config --cflags libdpdk)
g++ -O2 -std=c++17 -I"$top/include" "${dpdk[@]}" "$top/bench/peers/peers.cpp" "$top/out/library/libflowdir.a" \
    -lurcu -lurcu-cds -lurcu-common -ltbb -lrte_hash -lrte_eal -lpthread -o "$work/peers"
"$work/peers" "$@"
