#!/bin/bash
# slips.sh [SEED] [COUNT] [NAME]: for each seeded slip, or for the named one
# only, builds the trace program with it and runs COUNT scenarios; a slip that
# changes no output is NOT FOUND, and the exit status is then 1.
set -u

here=$(cd "$(dirname "$0")" && pwd)
seed=${1:-1}
count=${2:-500}
only=${3:-*}
work=$(mktemp -d) || exit 1
trap 'rm -rf "$work"' EXIT

# build FOLDER PROGRAM...
build() {
    local folder=$1
    shift
    make -s -C "$folder" OUT=build "${@/#/build/}" >"$folder/log" 2>&1
}

# run_all PROGRAM FOLDER: one output for each scenario
run_all() {
    local program=$1 results=$2 scenario
    mkdir -p "$results"
    for scenario in "$work"/scenarios/*; do
        cd "$scenario" || exit 1
        "$program" <input >"$results/${scenario##*/}" 2>/dev/null
    done
}

mkdir "$work/plain" || exit 1
cp "$here"/*.c "$here"/*.h "$here"/Makefile "$work/plain" || exit 1
build "$work/plain" trace scenarios || { cat "$work/plain/log"; exit 1; }
"$work/plain/build/scenarios" "$seed" "$count" "$work/scenarios" || exit 1
run_all "$work/plain/build/trace" "$work/wanted"

status=0
slips=0
found=0
for slip in "$here"/slips/$only.patch; do
    name=$(basename "$slip" .patch)
    [ -f "$slip" ] || { echo "$name IS NO SLIP"; exit 1; }
    slips=$((slips + 1))
    rm -rf "$work/slipped" "$work/got"
    cp -rp "$work/plain" "$work/slipped"
    rm -f "$work/slipped/build/trace"
    if ! patch -s -p1 -d "$work/slipped" <"$slip" >"$work/slipped/log" 2>&1 \
        || ! build "$work/slipped" trace; then
        echo "$name DOES NOT BUILD"
        cat "$work/slipped/log"
        status=1
        continue
    fi
    run_all "$work/slipped/build/trace" "$work/got"
    unlike=$(diff -rq "$work/wanted" "$work/got" | wc -l)
    if [ "$unlike" -gt 0 ]; then
        echo "$name found in $unlike of $count scenarios"
        found=$((found + 1))
    else
        echo "$name NOT FOUND"
        status=1
    fi
done
echo "$found of $slips slips found"
exit $status
