#!/usr/bin/env bash
# The functions that C and Rust link, held against the twins. The Rust twin asks all of them through tests/driver.c, what Rust's safe wrapper can be
# asked through tests/driver, and the C twin's rows and indexes in place of the library's, which bench/run times them beside. The Python twin works
# out published values and edge cases, which tests/values asks for. All is built for the processor at hand. The last line is 'N passed, M failed'; a
# compiler that cannot be had fails, and is named.
# usage: tests/linked.sh (after tests/twins.py, which builds the twin)
set -eu
cd "$(dirname "$0")/.."
work=$(mktemp -d)
trap 'rm -rf "$work"' EXIT
calls=twins/rust/target/release/twincalls

missing() { # WHAT: says so and fails
    echo "missing here, so that nothing is linked: $1"
    echo "0 passed, 1 failed"
    exit 1
}

quietly() { # COMMAND..: what it says is shown only where it fails
    "$@" >"$work/log" 2>&1 || {
        cat "$work/log"
        echo "0 passed, 1 failed"
        exit 1
    }
}

for tool in gcc cargo python3 "$calls"; do
    command -v "$tool" >/dev/null || missing "$tool"
done
quietly link/library
lib=target/lib/libyaqtumeer.a
unset YAQTUMEER_LIB # Rust links the same
c="gcc -std=c99 -O2 -Wall -Wextra -Wpedantic -Wconversion -Werror -Ilink/include"
quietly $c -o "$work/driver" tests/driver.c "$lib"
quietly $c -o "$work/values" tests/values/*.c "$lib"
renamed=$(sed -n 's/^[a-z].* \(twin_[a-z_]*\)(.*/\1/p' twins/c/rows.h twins/c/index.h | sed 's/twin_\(.*\)/-Dsbp_\1=twin_\1/')
quietly $c $renamed -o "$work/twin" tests/driver.c twins/c/rows.c twins/c/index.c "$lib"
quietly cargo build --offline --release --manifest-path tests/driver/Cargo.toml --target-dir target/driver

passed=0 failed=0
held() { # WHAT COMMAND..: prints what the command says, and adds up its last line
    echo "$1:"
    shift
    "$@" >"$work/said" || true
    sed '$d' "$work/said"
    n='' m=''
    read -r n _ m _ < <(tail -n 1 "$work/said") || true
    case $n$m in
    *[!0-9]* | '') failed=$((failed + 1)) ;;
    *) passed=$((passed + n)) failed=$((failed + m)) ;;
    esac
}
held "the library from C" "$calls" 1 140000 c "$work/driver"
held "the library from Rust" "$calls" 1 28000 rust target/driver/release/driver
held "the C twin's rows and indexes" "$calls" 1 28000 c "$work/twin"
held "published values and edge cases from C" python3 tests/values.py "$work/values"
echo "$passed passed, $failed failed"
[ "$failed" -eq 0 ]
