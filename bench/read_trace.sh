#!/usr/bin/env bash
# Makes a trace of a million lines, or of as many as the first argument says, and times the program
# trace_table on it: it reads every line and writes what was read. Build it by `rt run` in crates/trace_table.
set -eu
cd "$(dirname "$0")/.."
lines=${1:-1000000}
program=crates/trace_table/out/trace_table
if [ ! -x "$program" ]; then
    echo "no $program: run rt run in crates/trace_table first" >&2
    exit 2
fi
trace=$(mktemp)
trap 'rm -f "$trace"' EXIT
awk -v lines="$lines" 'BEGIN {
    print "at end event a b c"
    srand(1)
    for (i = 0; i < lines; i++) {
        time += int(rand() * 40)
        end = rand() < 0.5 ? "R" : "D"
        kind = int(rand() * 5)
        if (kind == 0) values = "K " int(rand() * 256) " 0 0"
        if (kind == 1) values = "T " int(rand() * 100000000) " " int(rand() * 65536) " " int(rand() * 65536)
        if (kind == 2) values = "P " int(rand() * 320) " " (32 + int(rand() * 95)) " 0"
        if (kind == 3) values = "I 0 0 0"
        if (kind == 4) values = "G " int(rand() * 100000) " 0 0"
        print time, end, values
    }
}' > "$trace"
echo "$lines value lines, $(wc -c < "$trace") bytes"
time "$program" < "$trace" > /dev/null
