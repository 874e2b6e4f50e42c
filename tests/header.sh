#!/usr/bin/env bash
# The C header and its examples: compiled as C99 and C++17 without a warning, every inline function called (tests/inline.c), the examples run on
# captures and on what goes wrong. A comparison that fails is a line 'differs: ..'; the last line is 'N passed, M failed'.
# gcc and g++ are needed; clang and clang++ are asked too where they are. LIB names another library than link/library's, OPT another optimisation
# than -O2.
# usage: tests/header.sh [compile] [inline] [epochs] [grows] [writes] [finds] [errors] (all where none is named; after link/library and tools/prove sbplist)
set -eu
cd "$(dirname "$0")/.."
lib=${LIB:-target/lib/libyaqtumeer.a}
sample=tests/sample/base-and-rover.sbp
times=800 # the sample so often is several MiB
flags="${OPT:--O2} -Wall -Wextra -Wpedantic -Wconversion -Werror -Ilink/include"
header=link/include/sbp.h
work=$(mktemp -d)
trap 'rm -rf "$work"' EXIT
passed=0 failed=0

missing() { # WHAT..: says so and fails
    echo "missing here: $*"
    echo "$passed passed, $((failed + 1)) failed"
    exit 1
}

held() { # WHAT COMMAND..: counts whether the command succeeds, and shows what it printed where it does not
    local what=$1
    shift
    if "$@" >"$work/said" 2>&1; then
        passed=$((passed + 1))
    else
        failed=$((failed + 1))
        echo "$what"
        sed 's/^/    /' "$work/said"
    fi
}

same() { # WHAT WANTED GOT: two files are alike, and not empty
    held "differs: $1" diff "$2" "$3"
    held "differs: $1: nothing is there" test -s "$2"
}

ends() { # WHAT STATUS COMMAND..: the command ends with that status; where it is not 0 it says why, on standard error alone
    local what=$1 status=$2 got=0
    shift 2
    timeout 60 "$@" >"$work/out" 2>"$work/err" </dev/null || got=$?
    held "differs: $what ends with $got, not $status" test "$got" -eq "$status"
    if [ "$status" -ne 0 ]; then
        held "differs: $what says nothing" test -s "$work/err"
        held "differs: $what prints" test ! -s "$work/out"
    fi
}

compilers=("gcc -std=c99" "g++ -x c++ -std=c++17")
for needed in gcc g++ nm python3; do
    command -v "$needed" >/dev/null || missing "$needed"
done
command -v clang >/dev/null && compilers+=("clang -std=c99") || echo "no clang here: gcc alone is asked for C"
command -v clang++ >/dev/null && compilers+=("clang++ -x c++ -std=c++17") || echo "no clang++ here: g++ alone is asked for C++"
[ -f "$lib" ] || missing "$lib (link/library makes it)"

# ---- the header compiles, alone and twice, and so do the examples; where size_t has 4 bytes it is refused in words

refused_small() { # COMPILER..: it says so
    ! "$@" -fsyntax-only -Ilink/include "$work/header.c" 2>"$work/why" && grep 'error.*size_t of 8 bytes' "$work/why"
}

compile() {
    printf '#include "sbp.h"\n#include "sbp.h"\nint main(void) { return 0; }\n' >"$work/header.c"
    printf '#include <stdint.h>\n#undef SIZE_MAX\n#define SIZE_MAX 4294967295U\n' >"$work/small.h"
    local compiler source small
    for compiler in "${compilers[@]}"; do
        for source in "$work/header.c" link/examples/*.c; do
            held "not compiled by $compiler: ${source##*/}" $compiler $flags -c -o "$work/object" "$source"
        done
        held "differs: $compiler takes a size_t of 4 bytes" refused_small $compiler -include "$work/small.h"
    done
    # gcc's own way to have 4 bytes, which needs no other system's headers
    case $(uname -m) in
    x86_64) small=-m32 ;;
    aarch64) small=-mabi=ilp32 ;;
    *) small= ;;
    esac
    [ -z "$small" ] || held "differs: gcc $small takes a size_t of 4 bytes" refused_small gcc $small -ffreestanding
}

# ---- every inline function and every name, and that no other is there

inline() {
    local compiler n m
    for compiler in "${compilers[@]}"; do
        rm -f "$work/inline"
        held "not compiled by $compiler: inline.c" $compiler $flags -c -o "$work/inline.o" tests/inline.c
        held "not linked: inline.c" ${compiler%% *} -o "$work/inline" "$work/inline.o" "$lib"
        [ -x "$work/inline" ] || return 0
        "$work/inline" >"$work/inlined" || true
        sed '$d' "$work/inlined"
        n=0 m=1 # where it ends before it has counted
        [[ $(tail -n 1 "$work/inlined") =~ ^([0-9]+)\ passed,\ ([0-9]+)\ failed$ ]] && n=${BASH_REMATCH[1]} m=${BASH_REMATCH[2]}
        [ "$n" -gt 0 ] || echo "not counted: inline.c by $compiler"
        passed=$((passed + n)) failed=$((failed + m))
    done
    # a static inline function that nobody calls is not in the object
    gcc -std=c99 -O0 -Ilink/include -c -o "$work/calls.o" tests/inline.c
    nm "$work/calls.o" | sed -n 's/.* t \(sbp_.*\)/\1/p' | sort >"$work/called"
    sed -n 's/^static inline .*[ *]\(sbp_[a-z_]*\)(.*/\1/p' "$header" | sort >"$work/inlines"
    same "an inline function that tests/inline.c does not call" "$work/inlines" "$work/called"
    grep -o '^#define SBP_[A-Z_]* ' "$header" | sed 's/#define SBP_//; s/ //' | sort >"$work/names"
    sed -n 's/^    NAME(SBP_\([A-Z_]*\),.*/\1/p; s/^    REFUSAL([0-9]*, \([A-Z_]*\)),/\1/p' tests/inline.c | sort >"$work/looked-at"
    same "a name that tests/inline.c does not look at" "$work/names" "$work/looked-at"
    # functions that the header declares and the library does not have
    sed -n '/^static/d; s/^[a-z].*[ *]\(sbp_[a-z_]*\)(.*/\1/p' "$header" | sort >"$work/declared"
    nm -g --defined-only "$lib" 2>/dev/null | sed -n 's/.* T \(sbp_.*\)/\1/p' | sort | comm -12 - "$work/declared" >"$work/there"
    same "a function that the library lacks" "$work/declared" "$work/there"
    held "differs: a function that the Rust wrapper or the Rattle source declares otherwise" python3 -B tests/signatures.py
}

# ---- the examples

listed() { # FILE LETTERS: what sbplist prints of it, the lines that begin with one of the letters
    tools/run sbplist <"$1" | grep "^[$2]"
}

captures() { # what the examples are run on, and what they are to print there
    python3 - "$work" "$times" <<'PYTHON'
import random
import struct
import sys
sys.dont_write_bytecode = True
sys.path[:0] = ["tests/sample", "twins/python"]
import answers
from make import capture, frame, packet

work, times = sys.argv[1], int(sys.argv[2])


def keep(name, data):
    with open(work + "/" + name, "wb") as file:
        file.write(data)


def ecef(tow, x, y, z, flags):
    return struct.pack("<IdddHBB", tow, x, y, z, 0, 9, flags)


def llh(tow, lat, lon, height, flags):
    return struct.pack("<IdddHHBB", tow, lat, lon, height, 15, 25, 9, flags)


def place(tow, fix, *numbers):
    return " ".join(["P", str(tow), fix] + ["%.17g" % number for number in numbers]) + "\n"


# after so many zeros nothing of one sample reaches into the next
keep("one", capture() + bytes(300))
keep("many", (capture() + bytes(300)) * times)
keep("places", "".join(place(416300000 + 1000 * k, "fixed", 37.7749 + k * 1e-6, -122.4194 - k * 1e-6, 21.5) for k in range(12)).encode())

# more senders than a roster takes; the first of them comes with a frame that is no packet
crowd = [packet(sender, 5, 2, i, range(1, 4)) for i in range(2) for sender in range(60000, 60010)]
keep("crowd", frame(0x0049, 7, b"") + b"".join(crowd))
# beginnings of frames everywhere
dice = random.Random(8)
keep("noise", b"".join(bytes(dice.choice([0x55, 0x55, 0x49, 0, 0xFF]) for _ in range(dice.randrange(300))) + one for one in crowd * 10))
# packets that overtake each other, and copies
keep("queues", answers.two_queues(64))
keep("orders", answers.every_order())

# each fix mode of each position
modes = [(0x0200, ecef, ["single", "float", "fixed"]), (0x0201, llh, ["single", "fixed", "float"])]
keep("modes", b"".join(frame(kind, 7, payload(5, 1, 2, 3, flags)) for kind, payload, fixes in modes for flags in range(3)))
keep("fixes", "".join(place(5, fix, 1, 2, 3) for _, _, fixes in modes for fix in fixes).encode())

# lines of a device's log: no zero after the text, one, many, no text, a line's end in it; and one that is refused
told = [(6, b"started", 0), (4, b"late", 1), (0, b"off", 200), (3, b"", 3), (7, b"two\nlines", 1)]
keep("logs", b"".join(frame(0x0401, 7, bytes([level]) + text + bytes(zeros)) for level, text, zeros in told) + frame(0x0401, 7, b"\x06no\0text"))
keep("texts", b"".join(b"L %d %s\n" % (level, text.replace(b"\n", b" ")) for level, text, _ in told))

here = llh(416300400, 37.7749, -122.4194, 21.5, 1)
seen = [(1052512345, -110000003, 128, 168, 900, 5, 0, 0), (1101122334, 121641107, 65, 181, 901, 31, 0, 0)]
observations = struct.pack("<IHB", 416300400, 1900, 0x10) + b"".join(struct.pack("<IiBBHHBB", *one) for one in seen)
keep("written", b"".join([
    frame(0x0100, 1228, struct.pack("<HIiB", 1900, 416300400, -250, 0)), frame(0x0201, 0, here), frame(0x0201, 1228, here),
    frame(0x0049, 1228, observations), frame(0x0401, 1228, b"\x06started"), frame(0x00A2, 0x42, bytes([7, 0])),
    frame(0x0800, 1228, bytes([1, 2, 3, 4]))]))
PYTHON
}

epochs() {
    local capture i
    for capture in "$sample" "$work/crowd" "$work/noise" "$work/queues" "$work/orders"; do
        listed "$capture" ET >"$work/lines"
        ends "epochs of ${capture##*/}" 0 "$work/epochs" "$capture"
        same "epochs of ${capture##*/}" "$work/lines" "$work/out"
        dd if="$capture" bs=7 2>/dev/null | timeout 60 "$work/epochs" /dev/stdin >"$work/out" 2>&1 || true
        same "epochs of ${capture##*/} in a pipe, 7 bytes at a time" "$work/lines" "$work/out"
    done
    # several MiB: each line of one so many times, and its totals so many times
    listed "$work/one" E >"$work/epochs-of-one"
    for ((i = 0; i < times; i++)); do cat "$work/epochs-of-one"; done >"$work/lines"
    listed "$work/one" T | awk -v n="$times" '{ print "T", $2 * n, $3 * n, $4 * n, $5 * n, $6 * n }' >>"$work/lines"
    ends "epochs of several MiB" 0 "$work/epochs" "$work/many"
    same "epochs of several MiB" "$work/lines" "$work/out"
    cat "$work/many" | timeout 60 "$work/epochs" /dev/stdin >"$work/out" 2>&1 || true
    same "epochs of a pipe" "$work/lines" "$work/out"
}

growing() { # a file is followed while it grows: the frames that are there are printed before the rest comes
    listed "$sample" FT >"$work/lines"
    head -c 3000 "$sample" >"$work/growing"
    : >"$work/followed"
    timeout 60 "$work/grows" "$work/growing" 5 >"$work/followed" 2>&1 &
    local follower=$! tries
    for ((tries = 0; tries < 100; tries++)); do
        [ "$(grep -c '^F' "$work/followed")" -lt 20 ] || break
        sleep 0.1
    done
    held "differs: grows prints nothing while it waits" test "$(grep -c '^F' "$work/followed")" -ge 20
    held "differs: grows does not wait" kill -0 "$follower"
    tail -c +3001 "$sample" >>"$work/growing"
    held "differs: grows of a file that grows ends badly" wait "$follower"
    grep '^[FT]' "$work/followed" >"$work/out" || true
    same "grows of a file that grows" "$work/lines" "$work/out"
    grep '^P' "$work/followed" >"$work/out" || true
    same "positions of a file that grows" "$work/places" "$work/out"
}

grows() {
    listed "$sample" FT >"$work/lines"
    cat "$sample" | timeout 60 "$work/grows" /dev/stdin 2>&1 | grep '^[FT]' >"$work/out" || true
    same "grows of a pipe" "$work/lines" "$work/out"
    cat "$work/modes" | timeout 60 "$work/grows" /dev/stdin 2>&1 | grep '^P' >"$work/out" || true
    same "fix modes of both positions" "$work/fixes" "$work/out"
    cat "$work/logs" | timeout 60 "$work/grows" /dev/stdin 2>&1 | grep -av '^[FT]' >"$work/out" || true
    same "texts of a device's log" "$work/texts" "$work/out"
    growing
}

writes() {
    ends "writes" 0 "$work/writes"
    same "what is written" "$work/written" "$work/out"
    cat >"$work/lines" <<'LINES'
F 0 256 1228 11 0
F 19 513 0 34 0
F 61 513 1228 34 0
F 103 73 1228 39 0
E 1228 1900 416300400 1 2
F 150 1025 1228 8 0
F 166 162 66 2 0
F 176 2048 1228 4 21
T 188 188 0 0 0
LINES
    listed "$work/out" FET >"$work/listing"
    same "the listing of what is written" "$work/lines" "$work/listing"
}

finds() { # each question against sbplist's lines: in these captures closed reading finds no frame that open reading does not
    local kind sender offset capture
    for capture in "$sample" "$work/crowd"; do
        listed "$capture" F >"$work/frames"
        while read -r kind sender offset; do
            awk -v k="$((kind))" -v s="$((sender))" -v o="${offset:-0}" '$3 == k && $4 == s && $2 >= o { print $1, $2, $3, $4, $5; found = 1; exit }
                END { if (!found) print "N" }' "$work/frames" >"$work/lines"
            [ "$((kind))" -eq 2048 ] || awk -v k="$((kind))" '$3 == k { n++ } END { print "C", n + 0 }' "$work/frames" >>"$work/lines"
            ends "finds $kind $sender $offset" 0 "$work/finds" "$capture" $kind $sender $offset
            same "finds $kind $sender $offset in ${capture##*/}" "$work/lines" "$work/out"
        done <<'QUESTIONS'
65535 1228 4000
0xffff 0x4cc
73 0 99
73 0 100
0x0049 60009
73 7 1
513 1228 0
1025 0
2048 9
QUESTIONS
    done
    # several MiB: the first of one's places, so many times further on
    listed "$work/one" F | awk -v size="$(wc -c <"$work/one")" -v n="$times" '$3 == 65535 { place[m++] = $2 }
        END { for (k = 0; k < n; k++) for (i = 0; i < m; i++) print "F", k * size + place[i], 65535, 1228, 4 }' >"$work/beats"
    awk '$2 >= 1000000 { print; exit }' "$work/beats" >"$work/lines"
    echo "C $(wc -l <"$work/beats")" >>"$work/lines"
    ends "finds in several MiB" 0 "$work/finds" "$work/many" 65535 1228 1000000
    same "finds in several MiB" "$work/lines" "$work/out"
    printf 'N\nC 0\n' >"$work/lines"
    ends "finds in nothing" 0 "$work/finds" /dev/null 73 0
    same "finds in nothing" "$work/lines" "$work/out"
}

errors() {
    local program
    for program in epochs grows; do
        ends "$program of a directory" 1 "$work/$program" "$work"
        ends "$program of a missing file" 1 "$work/$program" "$work/none"
        ends "$program of nothing" 2 "$work/$program"
        ends "$program to a full disk" 1 sh -c '"$1" /dev/stdin <"$2" >/dev/full' sh "$work/$program" "$work/written"
    done
    ends "epochs of two files" 2 "$work/epochs" "$sample" "$sample"
    ends "grows for no number of seconds" 2 "$work/grows" "$sample" soon
    ends "finds of a directory" 1 "$work/finds" "$work" 73 0
    ends "finds of a missing file" 1 "$work/finds" "$work/none" 73 0
    ends "finds to a full disk" 1 sh -c '"$1" "$2" 73 0 >/dev/full' sh "$work/finds" "$sample"
    ends "finds without a sender" 2 "$work/finds" "$sample" 73
    ends "finds of no type" 2 "$work/finds" "$sample" 65536 0
    ends "finds from a negative offset" 2 "$work/finds" "$sample" 73 0 -1
    ends "writes with an argument" 2 "$work/writes" "$sample"
    ends "writes to a full disk" 1 sh -c '"$1" >/dev/full' sh "$work/writes"
}

prepared() { # the examples and the captures are there
    [ -x target/bin/sbplist ] || missing "target/bin/sbplist (tools/prove sbplist makes it)"
    local program
    for program in epochs grows writes finds; do
        [ -x "$work/$program" ] || held "not built: $program" gcc -std=c99 $flags -o "$work/$program" "link/examples/$program.c" "$lib"
        [ -x "$work/$program" ] || return 1
    done
    [ -f "$work/written" ] || captures
}

[ $# -gt 0 ] || set -- compile inline epochs grows writes finds errors
for part; do
    case $part in
    compile | inline) "$part" ;;
    epochs | grows | writes | finds | errors) ! prepared || "$part" ;;
    *) missing "a part $part" ;;
    esac
done
echo "$passed passed, $failed failed"
[ "$failed" -eq 0 ]
