#!/bin/bash
# Times `dunkelva diff` and other ways to compare two files of JSON documents by key, in one run.
# usage: run_documents.sh [DOCUMENTS [rewritten]]     (1,000,000; needs jq and time of Debian, and uses orjson where
# python3 can import it; with `rewritten` no right line is one of the left file)
set -eu
here=$(cd "$(dirname "$0")" && pwd)
count=${1:-1000000}
program="$here/../../crates/dunkelva/out/dunkelva"
folder=$(mktemp -d)
trap 'rm -r "$folder"' EXIT
[ -x "$program" ] || { echo "run_documents.sh: no program is built: rt run in crates/dunkelva" >&2; exit 1; }
python3 "$here/make_documents.py" "$count" "$folder" "${@:2}"
left="$folder/left.ndjson" right="$folder/right.ndjson"
cat "$left" "$right" > /dev/null
ls -l "$left" "$right" | awk '{ bytes += $5 } END { printf "%d documents a file, %.0f MB both\n", '"$count"', bytes / 1e6 }'

# Prints what a way to compare took: seconds and memory.
way() {
    local name="$1"
    shift
    printf '%-30s' "$name"
    /usr/bin/time -f '%e s, %U s of one processor, %M kB' "$@" 2>&1 > "$folder/said" | tail -n 1
}

for round in 1 2; do
    echo "round $round"
    way "dunkelva diff --key order.id" "$program" diff --key order.id "$left" "$right" || true
    way "python json and a dict" python3 "$here/with_json.py" "$left" "$right" order.id
    if python3 -c "import orjson" 2> /dev/null; then
        way "python orjson and a dict" python3 "$here/with_json.py" "$left" "$right" order.id orjson
    fi
    way "jq -S, sort and diff of lines" bash "$here/with_jq.sh" "$left" "$right"
done
