#!/usr/bin/env bash
# The Rust wrapper: its layout, its tests and the examples in its documentation, its two example programs, and that a changed library is linked
# anew. The last line is 'N passed, M failed'.
# usage: tests/wrapper.sh [layout] [tests] [library] [examples] (all of them by default; after link/library and tools/prove sbplist; YAQTUMEER_LIB
# names another folder of the library)
set -u
root=$(cd "$(dirname "$0")/.." && pwd)
cd "$root/link/rust" || exit 1
work=$(mktemp -d)
trap 'rm -rf "$work"' EXIT
export YAQTUMEER_LIB=${YAQTUMEER_LIB:-$root/target/lib}
archive=$YAQTUMEER_LIB/libyaqtumeer.a
sample=$root/tests/sample/base-and-rover.sbp
passed=0 failed=0

missing() { # WHAT..: says so and fails
    echo "missing, so that the wrapper is not tested: $*"
    echo "0 passed, 1 failed"
    exit 1
}

check() { # WHAT COMMAND..: counts whether it succeeds
    local what=$1
    shift
    if "$@" >"$work/told" 2>&1; then
        passed=$((passed + 1))
    else
        cat "$work/told"
        echo "differs: $what"
        failed=$((failed + 1))
    fi
}

quietly() { # COMMAND..: it succeeds without a warning
    "$@" >"$work/all" 2>&1
    local told=$?
    cat "$work/all"
    [ "$told" -eq 0 ] && ! grep -q '^warning' "$work/all"
}

prints() { # FILE COMMAND..: it prints exactly that, and succeeds
    local lines=$1
    shift
    "$@" >"$work/out" && diff "$lines" "$work/out"
}

ends() { # STATUS COMMAND..: it ends with that status, says why and prints nothing
    local expected=$1 told=0
    shift
    "$@" >"$work/out" 2>"$work/err" || told=$?
    echo "status $told, expected $expected; $(wc -c <"$work/out") bytes printed; said: $(cat "$work/err")"
    [ "$told" -eq "$expected" ] && [ -s "$work/err" ] && [ ! -s "$work/out" ]
}

sum() { # WORD: of the numbers before it in the lines 'test result'
    awk -v word="$1;" '/^test result:/ { for (i = 2; i <= NF; i++) if ($i == word) n += $(i - 1) } END { print n + 0 }' "$work/tests"
}

# A stale library would still be linked where its file has become empty, and a missing one has to be named.
changed_library() (
    export YAQTUMEER_LIB=$work/lib CARGO_TARGET_DIR=$work/target
    mkdir "$work/lib" && cp "$archive" "$work/lib/"
    build() { cargo build --offline --example writing; }
    build || exit 1
    printf '!<arch>\n' >"$work/lib/libyaqtumeer.a"
    ! build || { echo "an empty library was not noticed"; exit 1; }
    cp "$archive" "$work/lib/" && build || exit 1
    rm "$work/lib/libyaqtumeer.a"
    ! build 2>"$work/said" || { echo "a missing library was not noticed"; exit 1; }
    cat "$work/said"
    grep -q 'libyaqtumeer.a is not there: run link/library' "$work/said"
)

listed() { (cd "$root" && tools/run sbplist); }
written() { "$bin/writing" | listed; }

layout() {
    check "cargo fmt leaves nothing to change" cargo fmt --check
}

tests() {
    local told=0
    cargo test --offline --no-fail-fast >"$work/tests" 2>&1 || told=$?
    [ "$told" -eq 0 ] || cat "$work/tests"
    passed=$((passed + $(sum passed))) failed=$((failed + $(sum failed)))
    check "cargo test ends well" [ "$told" -eq 0 ]
    check "it has run tests" [ "$(sum passed)" -gt 0 ]
    check "it compiles without a warning" quietly cargo build --offline --all-targets
    check "the documentation has no warning" quietly cargo doc --offline --no-deps
}

library() {
    check "a changed library is linked anew" changed_library
}

examples() {
    check "the examples build" cargo build --offline --release --examples
    bin=${CARGO_TARGET_DIR:-target}/release/examples
    listed <"$sample" | grep '^[ET]' >"$work/lines"
    check "epochs prints sbplist's lines" prints "$work/lines" "$bin/epochs" "$sample"

    # longer than any buffer: the sample many times over, its counts by the Python twin
    local times=600
    for ((i = 0; i < times; i++)); do cat "$sample"; done >"$work/long"
    for ((i = 0; i < times; i++)); do grep '^E' "$work/lines"; done >"$work/lines-of-long"
    python3 -B - "$root/twins/python" "$work/long" <<'END' >>"$work/lines-of-long"
import sys
sys.path.insert(0, sys.argv[1])
import twin
data = open(sys.argv[2], "rb").read()
print("T", len(data), twin.row(twin.reading(data, False)[1]))
END
    check "epochs of $(wc -c <"$work/long") bytes" prints "$work/lines-of-long" "$bin/epochs" "$work/long"
    check "epochs of a pipe" prints "$work/lines" "$bin/epochs" <(cat "$sample")

    # packets that overtake each other, and copies
    python3 -B - "$root/twins/python" <<'END' >"$work/orders"
import sys
sys.path.insert(0, sys.argv[1])
import answers
sys.stdout.buffer.write(answers.every_order())
END
    listed <"$work/orders" | grep '^[ET]' >"$work/lines-of-orders"
    check "epochs of packets in every order" prints "$work/lines-of-orders" "$bin/epochs" "$work/orders"
    check "epochs of no file" ends 2 "$bin/epochs"
    check "epochs of two files" ends 2 "$bin/epochs" "$sample" "$sample"
    check "epochs of a missing file" ends 1 "$bin/epochs" "$work/nothing"
    check "epochs of a directory" ends 1 "$bin/epochs" "$work"
    check "epochs to a full disk" ends 1 sh -c "'$bin/epochs' '$sample' >/dev/full"

    cat >"$work/written" <<'END'
F 0 256 1228 11 0
F 19 513 0 34 0
F 61 73 1228 39 0
E 1228 1900 416300400 1 2
F 108 1025 1228 10 0
F 126 162 66 2 0
F 136 2048 1228 3 21
T 147 147 0 0 0
END
    check "writing's frames as sbplist lists them" prints "$work/written" written
    check "writing to a full disk" ends 1 sh -c "'$bin/writing' >/dev/full"
}

command -v cargo >/dev/null || missing cargo
command -v python3 >/dev/null || missing python3
[ -f "$archive" ] || missing "$archive (link/library makes it)"
[ -x "$root/target/bin/sbplist" ] || missing "target/bin/sbplist (tools/prove sbplist makes it)"

for part in ${@:-layout tests library examples}; do
    case $part in
    layout | tests | library | examples) "$part" ;;
    *) missing "the part $part" ;;
    esac
done
echo "$passed passed, $failed failed"
[ "$failed" -eq 0 ]
