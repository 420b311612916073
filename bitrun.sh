#!/usr/bin/env bash
# Runs bitrun on standard input, with its output and its status. It is proved and built first, unless that is done and no
# source has changed since: standard error shows the progress. If that fails, the status is 1, and the last line on standard
# error says why.
set -euo pipefail
# With CDPATH set, `cd` looks elsewhere, and prints where it went.
unset CDPATH
here="$(cd -- "$(dirname -- "$(readlink -f -- "${BASH_SOURCE[0]}")")" && pwd)"
out="$here/crates/bitrun/out"
program="$out/bitrun"
# The sources as they were before the program was built from them.
built_from="$out/bitrun.sources"

stop() {
    printf 'bitrun.sh: %s\n' "$1" >&2
    exit 1
}

# Each source with its time of change, so that an edit during the build is noticed.
sources() {
    (cd "$here" && find crates.txt crates -name out -prune -o -type f \( -name '*.rt' -o -name '*.antt' -o -name crates.txt \) \
        -printf '%p %C@ %i\n' | LC_ALL=C sort)
}

is_built() {
    [ -x "$program" ] && [ -f "$built_from" ] && sources | cmp -s - "$built_from"
}

prove_and_build() {
    command -v rt >/dev/null || stop "bitrun is not built yet, and there is no rt on the PATH to prove and build it"
    mkdir -p "$out"
    exec {lock}>"$out/bitrun.lock"
    flock -n "$lock" || stop "another bitrun.sh is proving bitrun now; try again when it is done"
    local now
    now="$(sources)"
    "$here/prove.sh" bitrun >&2 || stop "bitrun is not proved: the lines above say why"
    # `rt run` builds and then runs: on this input, with status 0.
    (cd "$here/crates/bitrun" && rt run <<<$'run u7\n' >/dev/null) || stop "bitrun was not built: rt says why, above"
    printf '%s\n' "$now" >"$built_from"
    exec {lock}>&-
}

is_built || prove_and_build
exec "$program"
