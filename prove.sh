#!/usr/bin/env bash
# prove.sh [CRATE]: proves the libraries of a crate from the lowest up, and then the crate; without a name, `arbitrary_int`.
# `rt check` alone would do the same more slowly: it reads all sources first where a library is still unproved, and by its own
# estimate of memory it often takes fewer jobs. A library that is proved stays proved: an interrupted run goes on with the next one.
set -euo pipefail
unset CDPATH
cd -- "$(dirname -- "$(readlink -f -- "${BASH_SOURCE[0]}")")"

stop() {
    printf 'prove.sh: %s\n' "$1" >&2
    exit 1
}

crate="${1:-arbitrary_int}"
command -v rt > /dev/null || stop "there is no rt on the PATH: install the Rattle kit, whose rt proves the crates"
grep -qE "^${crate}( [^:]*)?:" crates.txt || stop "crates.txt has no crate $crate"
[ -d "crates/$crate/src" ] || stop "there is no folder crates/$crate/src"
free_disk=$(df -Pm . | awk 'NR == 2 { print $4 }')
[ "$free_disk" -ge 3000 ] || stop "the disk has $free_disk MB free, and the proofs need 3,000"
# A job takes up to 2 GB. Of several jobs, one waits while the others work, so that one more than there are processors keeps all busy.
free_memory=$(awk '/MemAvailable/ { print int($2 / 1048576) }' /proc/meminfo)
jobs=$(($(nproc) + 1))
[ "$jobs" -le 5 ] || jobs=5
[ "$jobs" -le $((free_memory / 2)) ] || jobs=$((free_memory / 2))
[ "$jobs" -ge 1 ] || stop "only $free_memory GB of memory are free, and a check needs 2"

# The libraries of this repository that a crate names.
uses() {
    local name
    for name in $(sed -nE "s/^$1( [^:]*)?://p" crates.txt); do
        if [ -d "crates/$name" ]; then echo "$name"; fi
    done
}

# A crate behind all that it uses.
order() {
    local name
    for name in $(uses "$1"); do order "$name"; done
    echo "$1"
}

# Minutes that a first check takes with four jobs; others take one.
minutes() {
    awk -v name="$1" '$1 == name { found = $2 } END { print found ? found : 1 }' tools/minutes.txt
}

# If rattle may keep the proofs of these two libraries, it checks them in fixed parts, and waits for the slowest part. In their first check,
# a file takes the place of the folder for kept proofs, and all jobs share the functions. So the first check after an edit starts anew.
in_parts=" arbitrary_base arbitrary_core "

log="$(mktemp)"
kept=""
end() {
    local status=$?
    trap - EXIT INT TERM
    # shellcheck disable=SC2046
    kill $(jobs -p) 2> /dev/null || true
    rm -f "$log" ${kept:+"$kept"}
    exit "$status"
}
trap end EXIT
trap 'echo; echo "prove.sh: interrupted. Libraries that are proved stay proved: run it again to go on." >&2; exit 130' INT TERM

crates=()
for name in $(order "$crate"); do
    case " ${crates[*]-} " in *" $name "*) ;; *) crates+=("$name") ;; esac
done
left=0
for name in "${crates[@]}"; do left=$((left + $(minutes "$name"))); done
echo "prove.sh: ${#crates[@]} crates, $jobs jobs, $free_memory GB of memory free"

# One crate at a time, since rt locks the libraries below a crate while it proves it. `rt lib` proves and builds a library in one run.
for name in "${crates[@]}"; do
    verb=lib
    [ "$name" != "$crate" ] || verb=check
    folder="crates/$name/out/incremental"
    if [ "$verb" = lib ] && [[ "$in_parts" == *" $name "* ]] && [ ! -d "$folder" ]; then
        kept="$folder"
        mkdir -p "crates/$name/out"
        : > "$kept"
    fi
    (cd "crates/$name" && exec rt "$verb" --jobs "$jobs" --progress) > "$log" 2>&1 &
    check=$!
    last=$SECONDS
    while kill -0 "$check" 2> /dev/null; do
        sleep 0.3
        [ $((SECONDS - last)) -ge 20 ] || continue
        last=$SECONDS
        now=$(grep -oE '[0-9]+ of [0-9]+( functions checked)?$' "$log" | tail -n 1 || true)
        printf 'prove.sh: %4d s  %s %s; up to %d minutes left\n' "$SECONDS" "$name" "${now:-begins}" "$left"
    done
    if ! wait "$check"; then
        tail -n 30 "$log" >&2
        stop "$name is not proved: its messages are above"
    fi
    printf 'prove.sh: %4d s  %s is proved\n' "$SECONDS" "$name"
    rm -f ${kept:+"$kept"}
    kept=""
    left=$((left - $(minutes "$name")))
done
grep '^logic=' "$log"
