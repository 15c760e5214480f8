# Read by each client's run: where things are, and what their last lines say.
root=$(dirname "$(dirname "$here")")
dist=$(cd "${YIGTRAV_DIST:-$root/dist}" 2>/dev/null && pwd) && [ -f "$dist/libyigtrav.a" ] ||
    { echo "no library in ${YIGTRAV_DIST:-dist/}: run ./dist.sh first"; exit 1; }
out=$root/target/clients/$(basename "$here")
log=$out/log
status=0
mkdir -p "$out"
: >"$log"

# Ends with status 77 where a tool is missing.
need() {
    command -v "$1" >/dev/null || { echo "skipped: no $1"; exit 77; }
}

# Runs a test whose last line is 'N passed, M failed'; one that ends badly without that line has failed once.
try() {
    if "$@" >>"$log" 2>&1; then return; fi
    tail -n 1 "$log" | grep -q ' passed, [1-9][0-9]* failed$' ||
        printf 'FAILED: %s ended badly\n0 passed, 1 failed\n' "$*" >>"$log"
    status=1
}

# Every client's example prints the same.
try_example() {
    if "$@" 2>/dev/null | cmp -s - "$root/clients/example.out"; then
        echo "1 passed, 0 failed" >>"$log"
    else
        printf 'FAILED: the example prints something else than clients/example.out\n0 passed, 1 failed\n' >>"$log"
        status=1
    fi
}

# Failures, then the sum of all last lines.
finish() {
    grep -E '^FAIL|\.\.\. FAILED' "$log" || true
    awk '/^[0-9]+ passed, [0-9]+ failed$/ { p += $1; f += $3 } END { print p + 0 " passed, " f + 0 " failed" }' "$log"
    exit $status
}
