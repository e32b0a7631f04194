#!/bin/bash
# Compares two CSV files as whole rows by EXCEPT both ways. usage: with_sqlite.sh LEFT RIGHT
sqlite3 :memory: <<SQL
.mode csv
.import $1 old
.import $2 new
.mode list
SELECT count(*) || ' in the left file alone' FROM (SELECT * FROM old EXCEPT SELECT * FROM new);
SELECT count(*) || ' in the right file alone' FROM (SELECT * FROM new EXCEPT SELECT * FROM old);
SQL
