#!/bin/sh
# Compares what tagrun writes with what the plain program in bench/oracle does, on many generated jobs, byte for byte.
#
#   bench/compare.sh [JOBS [FIRST]]
#
# JOBS (default 1000) jobs are generated from the seeds FIRST (default 1), FIRST + 1, ..
# TAGRUN   the command to compare, run with a job on its standard input
#          (default: target/bin/tagrun of this repository)
# PICTURE  if set, a command that reads a job and writes the picture of the final label as a
#          PBM; its bytes are compared too
#
# At the first difference it keeps the job and both outputs under target/bench/ and ends with 1.

set -eu
root=$(cd "$(dirname "$0")/.." && pwd)
jobs=${1:-1000}
first=${2:-1}
TAGRUN=${TAGRUN:-$root/target/bin/tagrun}
PICTURE=${PICTURE:-}
out=$root/target/bench
mkdir -p "$out"

CARGO_TARGET_DIR=$out cargo build --quiet --release --offline --manifest-path "$root/bench/oracle/Cargo.toml"
oracle=$out/release/oracle
generate=$out/generate
rustc --edition 2021 -O "$root/bench/jobs/generate.rs" -o "$generate"

if ! command -v "${TAGRUN%% *}" >/dev/null; then
    echo "compare: no program ${TAGRUN%% *}; build it, or name one by TAGRUN=.." >&2
    exit 2
fi

scratch=$(mktemp -d)
trap 'rm -rf "$scratch"' EXIT
"$generate" jobs "$scratch" "$first" "$jobs"

# Keeps what belongs to a difference and shows its first lines.
differs() {
    for file in job expected found; do
        cp "$scratch/$1.$file" "$out/difference.$file"
    done
    echo "compare: job $1 differs in its $2; kept as $out/difference.job (.expected, .found)"
    if [ "$2" = output ]; then
        diff "$scratch/$1.expected" "$scratch/$1.found" | head -n 5 || true
    else
        cmp "$scratch/$1.expected" "$scratch/$1.found" || true
    fi
    exit 1
}

seed=$first
: >"$scratch/all"
while [ "$seed" -lt $((first + jobs)) ]; do
    job=$scratch/$seed.job
    expected=$scratch/$seed.expected
    found=$scratch/$seed.found
    "$oracle" <"$job" >"$expected"
    status=0
    $TAGRUN <"$job" >"$found" || status=$?
    if [ "$status" -ne 0 ]; then
        echo "compare: ended with status $status"
        differs "$seed" output
    fi
    cmp -s "$expected" "$found" || differs "$seed" output
    cat "$expected" >>"$scratch/all"
    if [ -n "$PICTURE" ]; then
        "$oracle" --picture "$expected" <"$job" >/dev/null
        $PICTURE <"$job" >"$found"
        cmp -s "$expected" "$found" || differs "$seed" picture
    fi
    rm -f "$job" "$expected" "$found"
    seed=$((seed + 1))
done

echo "$jobs jobs alike: $(grep -cv '^R' "$scratch/all") tags, $(grep -c '^R' "$scratch/all") refusals"
echo "refusals by number:$(grep '^R' "$scratch/all" | cut -d, -f2 | sort | uniq -c | awk '{ printf " %s:%s", $2, $1 }')"
