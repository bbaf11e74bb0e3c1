#!/usr/bin/env bash
# Runs the whole gate, says what it cost, in a line that begins with 'Measured:', holds the program that was built to the rows of its
# library, to its options, to bounds on its work and to what it owes its sockets and its disk, and the released one to it; ends with the gate's last line and its status, or with status 1
# where the program does otherwise, or the release isn't the program of the sources that it names.
#
#     checks/gate_minutes.sh          at least an hour on four processors
#     checks/gate_minutes.sh --note   the same, and where the gate passed the line takes the place of the last one in docs/working.md
#
# The whole is what the shell's `time` tells of the gate and of all that it started, in user and system time. What each crate took in
# it is seen from outside, by noting every second how much processor time each process of the prover has had; so a crate's share is a
# second or so too small for each of its checks. With a kit that keeps what earlier runs passed, the figure is that of what this run did.
set -u
set -o pipefail
cd "$(dirname -- "$0")/.." || exit 1
room=$(mktemp -d) || exit 1
trap 'kill "$watcher" 2>/dev/null; rm -rf "$room"' EXIT

# Notes of each process of the prover that descends from this script its number, its processor seconds and its words.
watch() {
    while sleep 1; do
        ps -ww -eo pid=,ppid=,cputimes=,args= | awk -v top="$$" '{
            above[$1] = $2; seconds[$1] = $3; $2 = ""; $3 = ""; words[$1] = $0
        }
        END {
            for (it in above) if (words[it] ~ / --crate-name [a-z0-9_]+ /) {
                for (at = it; at > 1 && at != top; at = above[at]);
                if (at == top) print seconds[it], words[it]
            }
        }'
    done >"$room/seen"
}

# From what was seen: a line 'KIND CRATE SECONDS' for each kind of check of each crate. What is neither written nor a test is an edit's check.
shares() {
    awk '{
        crate = ""; kind = "edits"
        for (at = 3; at <= NF; at++) {
            if ($at == "--crate-name") crate = $(at + 1)
            if ($at == "-o" || $at == "--crate-checked") kind = "proofs"
        }
        for (at = 3; at <= NF; at++) if ($at == "--test") kind = "tests"
        if ($1 > most[$2 " " kind " " crate]) most[$2 " " kind " " crate] = $1
    }
    END {
        for (it in most) { split(it, word, " "); sum[word[2] " " word[3]] += most[it] }
        for (it in sum) print it, sum[it]
    }' "$room/seen"
}

# The minutes of one kind of check.
minutes_of() {
    awk -v kind="$1" '$1 == kind { sum += $3 } END { printf "%.0f", sum / 60 }' "$room/shares"
}

dearest() {
    awk '{ sum[$2] += $3 } END { for (it in sum) printf "%s %.1f\n", it, sum[it] / 60 }' "$room/shares" | sort -k2,2nr | head -n 10 |
        awk '{ printf "%s%s %s", (NR > 1 ? ", " : ""), $1, $2 }'
}

watch &
watcher=$!
TIMEFORMAT='%U %S %R'
{ time { rt ci 2>&1 | tee "$room/said"; }; } 2>"$room/times"
status=$?
kill "$watcher" 2>/dev/null
shares >"$room/shares"
line=$(awk -v kit="$(rt version)" -v processors="$(nproc)" -v proofs="$(minutes_of proofs)" -v tests="$(minutes_of tests)" \
    -v edits="$(minutes_of edits)" -v dearest="$(dearest)" '{
    printf "Measured: %.0f processor minutes (proofs %s, tests %s, edits %s), in %.0f minutes of clock on %s processors, by `%s`. ", \
        ($1 + $2) / 60, proofs, tests, edits, $3 / 60, processors, kit
    printf "The dearest crates, in minutes: %s.", dearest
}' "$room/times")
echo "$line"
if [ "$status" -eq 0 ] && [ "${1-}" = --note ]; then
    awk -v line="$line" '/^Measured: / { print line; next } { print }' docs/working.md >"$room/page" && cat "$room/page" >docs/working.md
fi
if [ "$status" -eq 0 ]; then
    python3 checks/program_rows.py || status=1
    python3 checks/serve_options.py || status=1
    python3 checks/everyday_work.py || status=1
    python3 checks/any_work.py || status=1
    python3 checks/socket_calls.py || status=1
    python3 checks/disk_calls.py || status=1
    python3 checks/journal_files.py || status=1
    python3 checks/account_files.py || status=1
    python3 checks/release.py || status=1
fi
tail -n 1 "$room/said"
exit "$status"
