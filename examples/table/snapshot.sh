#!/bin/sh
# Copies the table of a stream_sqlite that runs: it is stopped, its two files are copied, and it goes on.
# The copy is what a crash at that moment would leave, so sqlite3 reads each batch of it as a whole or not at all.
#
# usage: snapshot.sh PID FILE COPY
set -eu
kill -STOP "$1"
trap 'kill -CONT "$1"' EXIT
until grep -q '^State:.T' "/proc/$1/status"; do sleep 0.01; done
rm -f "$3" "$3-wal" "$3-shm"
cp "$2" "$3"
[ ! -e "$2-wal" ] || cp "$2-wal" "$3-wal"
