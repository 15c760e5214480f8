#!/usr/bin/env bash
# Proves crates, lowest first, and prints one line for each. All that the prover says stays in target/prove/NAME.log.
#
#     ./prove.sh check [NAME...]   proves the named crates and what they need, or every crate
#     ./prove.sh staticlib NAME    proves a static library and what it needs, and writes target/staticlib/libNAME.a
#     ./prove.sh program NAME      proves a program and what it needs, and writes target/bin/NAME
#
# The exit status is 0 where all of them are proved. Needs rt.
set -euo pipefail
cd "$(dirname "$0")"

case ${1-}:$# in
check:* | staticlib:2 | program:2) command=$1; shift ;;
*) sed -n '2,8s/^# \{0,1\}//p' "$0" >&2; exit 2 ;;
esac
command -v rt >/dev/null || { echo "prove.sh: the Rattle kit's command rt is not on the PATH" >&2; exit 1; }

# The named crates and all that they need, as crates.txt says; the kit's own libraries do not count.
closure() {
    WANTED="$*" awk '
        function visit(name,    needs, i, k) {
            if (name in seen || !(name in deps)) return
            seen[name]
            k = split(deps[name], needs, " ")
            for (i = 1; i <= k; i++) visit(needs[i])
            print name
        }
        { sub(/#.*/, "") }
        split($0, half, ":") == 2 {
            split(half[1], words, " ")
            deps[words[1]] = half[2]
            all = all " " words[1]
        }
        END {
            k = split(ENVIRON["WANTED"] == "" ? all : ENVIRON["WANTED"], wanted, " ")
            for (i = 1; i <= k; i++) visit(wanted[i])
        }' crates.txt
}

# Says why a step failed, and ends.
failed() { # WHAT LOG
    tail -n 20 "$2" >&2
    echo "prove.sh: $1; $2 has all of it" >&2
    exit 1
}

names=$(closure "$@")
total=$(echo "$names" | wc -l)
log=target/prove/${1:-all}.log
mkdir -p target/prove
: >"$log"
echo "Proving ${*:-everything}: $total crates; what the prover says goes to $log"
# 20 s a crate: an estimate, from 49 crates in 9 min 40 s, two at a time
echo "The first time takes about $(((total * 20 + 59) / 60)) min on two cores; later only what has changed is proved again"
count=0
for name in $names; do
    began=$SECONDS
    count=$((count + 1))
    (cd "crates/$name" && rt check) >>"$log" 2>&1 || failed "$name is NOT PROVED" "$log"
    printf '%*d of %d  %-18s %d s\n' ${#total} "$count" "$total" "$name" "$((SECONDS - began))"
done

case $command in
staticlib)
    (cd "crates/$1" && rt lib) >>"$log" 2>&1 || failed "lib$1.a is not built" "$log"
    mkdir -p target/staticlib
    cp "crates/$1/out/lib$1.a" "target/staticlib/lib$1.a"
    echo "target/staticlib/lib$1.a"
    ;;
program)
    # rt builds a program by running it; what it prints here, and how it ends, is of no interest.
    rm -f "crates/$1/out/$1"
    (cd "crates/$1" && rt run </dev/null) >>"$log" 2>&1 || [ -x "crates/$1/out/$1" ] || failed "$1 is not built" "$log"
    mkdir -p target/bin
    cp "crates/$1/out/$1" "target/bin/$1"
    echo "target/bin/$1"
    ;;
esac
