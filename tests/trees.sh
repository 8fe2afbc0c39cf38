# SPDX-License-Identifier: MIT OR Apache-2.0
# shellcheck shell=bash
# Shared by the tests that check changed crates (edits, facts, wrong-drivers, wrong-pairs, wrong-scripts) and by
# firmware/build: copies of the crates, and the names of facts. To be sourced at the repository's root, under
# set -euo pipefail.

# how many checks at a time: RT_JOBS, but no more than the processors
jobs=$(nproc 2>/dev/null || echo 2)
if [ "${RT_JOBS:-$jobs}" -lt "$jobs" ]; then jobs=$RT_JOBS; fi

# new_tree DIR: the sources of the crates. What is proved of them is not copied: in a copy rt begins with what the checks
# in others on this machine kept of the same crates
new_tree() {
    mkdir -p "$1"
    tar -cf - --anchored --no-wildcards-match-slash --exclude='crates/*/out' crates crates.txt | tar -xf - -C "$1"
    if [ -f HANDLES ]; then cp HANDLES "$1"; fi
}

# listed: the crates of crates.txt, in its order
listed() { sed -nE 's/#.*//; s/^([a-z][a-z0-9_]*)([ \t][^:]*)?:.*/\1/p' crates.txt; }

# proved CRATE..: proves these crates as they stand, the lowest first; PROVED=1: they were just proved
proved() {
    local crate log
    [ "${PROVED:-}" != 1 ] || return 0
    log=$(mktemp)
    for crate in $(listed); do
        case " $* " in *" $crate "*) ;; *) continue ;; esac
        if ! (cd "crates/$crate" && rt check) >"$log" 2>&1; then
            tail -n 20 "$log"
            rm -f "$log"
            echo "$crate: not proved as it stands"
            return 1
        fi
    done
    rm -f "$log"
}

# deps_of CRATE: the crates of the repository that it uses
deps_of() {
    local dep
    for dep in $(sed -nE "s/#.*//; s/^$1([ \t][^:]*)?://p" crates.txt); do
        if [ -d "crates/$dep" ]; then echo "$dep"; fi
    done
}

# users_of CRATE..: these crates and all that use them, at whatever distance, in the order of the proofs
users_of() {
    awk -v given="$*" '
        BEGIN { n = split(given, a, " "); for (i = 1; i <= n; i++) used[a[i]] = 1 }
        { sub(/#.*/, ""); i = index($0, ":") }
        i {
            name = substr($0, 1, i - 1)
            sub(/^[ \t]*/, "", name)
            sub(/[ \t].*/, "", name)
            names[++count] = name
            deps[name] = substr($0, i + 1)
        }
        END {
            do {
                more = 0
                for (k = 1; k <= count; k++) if (!(names[k] in used)) {
                    m = split(deps[names[k]], d, " ")
                    for (j = 1; j <= m; j++) if (d[j] in used) { used[names[k]] = 1; more = 1; break }
                }
            } while (more)
            for (k = 1; k <= count; k++) if (names[k] in used) print names[k]
        }' crates.txt
}

# first_error CRATE LOG: CRATE/FILE:LINE of the first place at which a check in the crate's folder names an error; one that
# says only that what it rests on was not admitted does not count
first_error() {
    local at
    at=$(grep -vE 'was not admitted|declarations? that depends? on ' "$2" |
        grep -m 1 -oE '^[^ ]+:[0-9]+:[0-9]+: error' || true)
    [ -n "$at" ] || at=$(grep -m 1 -oE '^note: [^ ]+:[0-9]+:[0-9]+:' "$2" || true)
    printf '%s\n' "$at" | sed -E "s|^note: ||; s|: error\$||; s|:\$||; s|:[0-9]+\$||; s|^\./||; s|^.|$1/&|"
}

# first_unproved CRATE LOG: CRATE/FILE:LINE of the first function of which a check in the crate's folder says that what
# it ensures is not proved: its body breaks its contract
first_unproved() {
    local told='it is not proved that what the function ensures holds'
    sed -nE "s|^note: (src/[^ :]+:[0-9]+):[0-9]+: $told.*|$1/\\1|p" "$2" | head -n 1
}

# fact_at CRATE/FILE:LINE: the definition, theorem or function that stands there: a name; in a function's proof
# FUNCTION.NAME
fact_at() {
    local file=crates/${1%:*} line=${1##*:}
    [ -f "$file" ] || return 0
    case $file in
    *.rt)
        awk -v line="$line" 'NR <= line && match($0, /(^|[ \t])fn [A-Za-z0-9_]+/) { name = substr($0, RSTART, RLENGTH) }
            END { sub(/^.*fn /, "", name); print name }' "$file"
        ;;
    *)
        awk -v line="$line" -v file="$file" '
            # a definition begins at the margin; the margin of a module without a name is that of its first line
            function margin(s) { match(s, /^ */); return RLENGTH }
            NR > line { exit }
            /^ *$/ || /^ *--/ { next }
            { at = margin($0) }
            opened { base = at; opened = 0 }
            at < base { base = at }
            at == base {
                word = $1
                if (word == "module") { opened = 1; next }
                if (word == "use" || word == "unfolding" || word ~ /^[)}\]]/) next
                for (i = 1; $i ~ /^(pub|abbrev|unfoldable|record|data|opaque|private|instance)$/; i++) ;
                name = $i
            }
            END {
                if (match(file, /\/proofs\/.*\/(Answers|Invariants|Proof)\.antt$/)) {
                    folder = substr(file, RSTART + 8)
                    sub(/\/[A-Za-z]*\.antt$/, "", folder)
                    name = folder "." name
                }
                print name
            }' "$file"
        ;;
    esac
}
