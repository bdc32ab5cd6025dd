#!/bin/sh
# compare_map.sh PROGRAM [SEED]: holds a map program against the reference over the Rust, on every input that map_inputs
# writes, and says how many agree. README.md, "The map program".
set -eu
[ $# -ge 1 ] || { echo "compare_map.sh PROGRAM [SEED]" >&2; exit 2; }
program=$(realpath "$1")
[ -x "$program" ] || { echo "$1: no program" >&2; exit 2; }
shift
cd "$(dirname "$0")"
cargo build --release --quiet --bin map_reference --bin map_inputs
built=${CARGO_TARGET_DIR:-target}
folder=$built/map_inputs
rm -rf "$folder"
"$built/release/map_inputs" "$folder" "$@" 2> "$built/map_inputs.counts"

inputs=0 agree=0 papers=0
while IFS=, read -r name last; do
    inputs=$((inputs + 1))
    "$built/release/map_reference" < "$folder/$name" > "$folder/$name.reference"
    # the reference ends as the papers say that it must
    case $(tail -n 1 "$folder/$name.reference"), in
        "$last",*) papers=$((papers + 1)) ;;
        *) echo "the reference does not end in $last: $folder/$name" ;;
    esac
    status=0
    timeout 20 "$program" < "$folder/$name" > "$folder/$name.program" || status=$?
    # 124 and above: too slow, not started, or stopped by a signal
    if [ "$status" -lt 124 ] && cmp -s "$folder/$name.reference" "$folder/$name.program"; then
        agree=$((agree + 1))
    else
        echo "differs: $folder/$name"
    fi
done < "$folder/index.txt"
echo "inputs,$inputs"
echo "reference as the papers say,$papers"
echo "agree,$agree"
[ "$inputs" -ge 320 ] && [ "$papers" -eq "$inputs" ] && [ "$agree" -eq "$inputs" ]
