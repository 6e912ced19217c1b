#!/usr/bin/env bash
# Checks the second keeper in reference/ by itself, and rehearse against it.
# Its last line is 'N passed, M failed': tests, planted flaws that were found, and scripts.
#
#   SEEDS=1-50000 PATIENCE=3600 bash tests/compare.sh     a longer run
set -u
cd "$(dirname "$0")/.." || exit 1

# The switch: 1 compares crates/rehearse/out/rehearse with the second keeper, and a rehearse that isn't there is
# a failure; 0 leaves that out.
compare_rehearse=${COMPARE_REHEARSE:-1}
rehearse=${REHEARSE:-crates/rehearse/out/rehearse}
# The scripts that are played: always the same, and for at most so many seconds.
seeds=${SEEDS:-1-4000}
patience=${PATIENCE:-110}
# A planted flaw must be found by these.
flaw_seeds=1-1000

passed=0
failed=0
log=$(mktemp)
trap 'rm -f "$log"' EXIT
target=$(cd reference && cargo metadata --offline --no-deps --format-version 1 |
    sed -n 's/.*"target_directory":"\([^"]*\)".*/\1/p')
programs=$target/release

fails() {
    echo "failed: $1"
    failed=$((failed + 1))
}

# Adds up the lines of cargo test that begin with 'test result:'.
unit_tests() {
    (cd reference && cargo test --release --offline) >"$log" 2>&1
    local status=$? good bad
    good=$(awk '/^test result:/ { n += $4 } END { print n + 0 }' "$log")
    bad=$(awk '/^test result:/ { n += $6 } END { print n + 0 }' "$log")
    echo "cargo test: $good passed, $bad failed."
    passed=$((passed + good))
    failed=$((failed + bad))
    if [ "$status" != 0 ]; then
        cat "$log"
        [ "$bad" != 0 ] || fails "cargo test"
    fi
}

# Plays the seeds with a program and adds up the scripts.
scripts() {
    local name=$1 line
    shift
    timeout "$patience" "$programs/compare" "$@" >"$log" 2>&1
    local status=$?
    line=$(tail -n 1 "$log")
    echo "$name: $line."
    if [[ $line =~ ^([0-9]+)\ passed,\ ([0-9]+)\ failed$ ]]; then
        passed=$((passed + BASH_REMATCH[1]))
        failed=$((failed + BASH_REMATCH[2]))
        [ "$status" = 0 ] || cat "$log"
    else
        cat "$log"
        fails "$name ended with status $status"
    fi
}

# The second keeper against itself: nothing differs, and the promise is kept.
nothing_is_found() {
    if timeout "$patience" "$programs/compare" "$programs/reference" 1-500 >"$log" 2>&1; then
        echo "the second keeper against itself: nothing found"
        passed=$((passed + 1))
    else
        cat "$log"
        fails "the second keeper differs from itself"
    fi
}

# A keeper with a planted flaw must be told from one without: by a script that ends in a
# difference, not by a program that can't be run.
flaw_is_found() {
    timeout "$patience" "$programs/compare" "$programs/reference" "$flaw_seeds" -- --break "$1" >"$log" 2>&1
    local status=$?
    if [ "$status" = 1 ] && grep -q '^cut down to' "$log" && grep -q '^  program: ' "$log"; then
        echo "planted $1: found, $(sed -n 's/^cut down to \(.*\):$/\1/p' "$log")"
        passed=$((passed + 1))
    else
        cat "$log"
        fails "the planted flaw $1 wasn't found"
    fi
}

if (cd reference && cargo build --release --offline) >"$log" 2>&1; then
    unit_tests
    nothing_is_found
    flaws=$("$programs/reference" --flaws)
    [ -n "$flaws" ] || fails "no flaws to plant"
    for flaw in $flaws; do
        flaw_is_found "$flaw"
    done
    if [ "$compare_rehearse" = 1 ]; then
        scripts "rehearse" "$rehearse" "$seeds"
    fi
else
    cat "$log"
    fails "cargo build"
fi

echo "$passed passed, $failed failed"
[ "$failed" = 0 ]
