#!/bin/bash
# Compares two files as whole lines in any order. usage: with_sort.sh LEFT RIGHT
export LC_ALL=C
diff <(sort "$1") <(sort "$2") | grep -c '^[<>]'
