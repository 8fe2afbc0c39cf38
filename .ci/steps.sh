# SPDX-License-Identifier: MIT OR Apache-2.0
# shellcheck shell=bash
# What .ci/run is written with. To be sourced at the repository's root, under set -euo pipefail.

exec </dev/null

# how many checks of crates at a time: RT_JOBS, but no more than the processors
jobs=$(nproc 2>/dev/null || echo 2)
if [ "${RT_JOBS:-$jobs}" -lt "$jobs" ]; then jobs=$RT_JOBS; fi
logs=$(mktemp -d)
pids=() names=()
# each step is a group of processes, which is ended with this one
set -m
ended() {
    local pid
    for pid in ${pids[@]+"${pids[@]}"}; do kill -- "-$pid" 2>/dev/null || true; done
    rm -rf "$logs"
}
trap ended EXIT

# timed NAME COMMAND..: what it says goes to its output, its times to NAME.time
timed() {
    local TIMEFORMAT='%0R s, %0U + %0S s of a processor' name=$1
    shift
    { time "$@" 2>&3; } 3>&1 2>"$logs/$name.time"
}

# waited NAME PID: waits for it and says how it ended
waited() {
    local status=0
    wait "$2" || status=$?
    if [ "$status" -eq 0 ]; then
        echo "== $1: passed, $(tail -n 1 "$logs/$1.time")"
    else
        echo "== $1: FAILED with $status"
        return 1
    fi
}

# step NAME COMMAND..: prints what it says as it says it
step() {
    local name=$1
    shift
    echo "== $name: $*" | cut -c1-200
    (timed "$name" "$@" 2>&1 | tee "$logs/$name.log") &
    pids+=("$!")
    waited "$name" "$!" || exit 1
    unset 'pids[-1]'
}

# beside NAME COMMAND..: what it says is printed by join
beside() {
    local name=$1
    shift
    echo "== $name: $*, beside what follows" | cut -c1-200
    (timed "$name" "$@") >"$logs/$name.log" 2>&1 &
    pids+=("$!") names+=("$name")
}

# join [NAME..]: waits for what runs beside, all or those named
join() {
    local i failed=0
    for i in "${!names[@]}"; do
        case " $* " in *" ${names[i]} "* | '  ') ;; *) continue ;; esac
        waited "${names[i]}" "${pids[i]}" >"$logs/end" || failed=1
        echo "== ${names[i]} said:"
        cat "$logs/${names[i]}.log" "$logs/end"
        unset 'pids[i]' 'names[i]'
    done
    [ "$failed" -eq 0 ] || exit 1
}

# good_edits: no must-fail edit is a bad one, by rt ci's line; a bad one fails nothing there
good_edits() {
    local line
    line=$(grep '^rt: ok\b' "$logs/rt-ci.log" | tail -n 1)
    [ -n "$line" ] || { echo "rt ci has no line 'rt: ok'"; return 1; }
    if grep -qE ', [1-9][0-9]* bad\b' <<<"$line"; then
        grep 'BAD EDIT' "$logs/rt-ci.log" || true
        echo "$line"
        return 1
    fi
    echo "$line"
}

# passed: rt ci's last line
passed() {
    local line
    line=$(tail -n 1 "$logs/rt-ci.log")
    [[ $line =~ ^[1-9][0-9]*\ passed,\ 0\ failed$ ]] || { echo "rt ci ended with: $line"; exit 1; }
    echo "$line"
}

# ---- steps of several commands

# and what the comparison is built of, before there is a port to link
oracle_tests() {
    cd oracle || return
    nice cargo test --offline --release
    nice cargo build --offline --release -p wider -p traced -p mutants
}

# one after the other, as each begins with the same crates
wrong_drivers_and_scripts() {
    RT_JOBS=2 tests/wrong-drivers/run
    tests/wrong-pairs/run
    tests/wrong-scripts/run --every-test
}

# the exported calls from C, and so many of each on corrupted states
calls_from_c() {
    export ARCHIVES=made
    tests/c/run
    tests/c/run fuzz "$1"
}
