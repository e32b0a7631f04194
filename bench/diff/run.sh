#!/bin/bash
# Times `dunkelva diff` and other ways to compare two CSV files by key, in one run.
# usage: run.sh [ROWS]      (1,000,000; needs python3-pandas, sqlite3 and time of Debian)
set -eu
here=$(cd "$(dirname "$0")" && pwd)
rows=${1:-1000000}
program="$here/../../crates/dunkelva/out/dunkelva"
folder=$(mktemp -d)
trap 'rm -r "$folder"' EXIT
[ -x "$program" ] || { echo "run.sh: no program is built: rt run in crates/dunkelva" >&2; exit 1; }
/usr/bin/python3 "$here/make_tables.py" "$rows" "$folder"
left="$folder/left.csv" right="$folder/right.csv"
cat "$left" "$right" > /dev/null
ls -l "$left" "$right" | awk '{ bytes += $5 } END { printf "%d rows a file, %.0f MB both\n", '"$rows"', bytes / 1e6 }'

# Prints what a way to compare took: seconds and memory.
way() {
    local name="$1"
    shift
    printf '%-28s' "$name"
    /usr/bin/time -f '%e s, %U s of one processor, %M kB' "$@" 2>&1 > "$folder/said" | tail -n 1
}

for round in 1 2; do
    echo "round $round"
    way "dunkelva diff --key id" "$program" diff --key id "$left" "$right" || true
    way "pandas, all columns texts" /usr/bin/python3 "$here/with_pandas.py" "$left" "$right" id
    way "python dict" /usr/bin/python3 "$here/with_dict.py" "$left" "$right" id
    way "sqlite3 EXCEPT both ways" bash "$here/with_sqlite.sh" "$left" "$right"
    way "sort and diff of lines" bash "$here/with_sort.sh" "$left" "$right"
done
