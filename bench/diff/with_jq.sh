#!/bin/bash
# Compares two files of JSON documents in any order, by jq, sort and diff. usage: with_jq.sh LEFT RIGHT
export LC_ALL=C
# both are waited for, so that their time and memory are counted
exec 3< <(jq -cS . "$1" | sort)
left=$!
exec 4< <(jq -cS . "$2" | sort)
right=$!
diff /dev/fd/3 /dev/fd/4 | grep -c '^[<>]'
wait "$left" "$right"
