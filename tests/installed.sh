#!/usr/bin/env bash
# What tools/install puts under a prefix works from there: an example built by pkg-config alone, sbplist and sbp on the sample. And the scripts say what
# is missing and pass exit statuses on. The last line is 'N passed, M failed'.
# usage: tests/installed.sh
set -u
cd "$(dirname "$0")/.."
work=$(mktemp -d)
trap 'rm -rf "$work"' EXIT
sample=tests/sample/base-and-rover.sbp
passed=0 failed=0
holds() { # WHAT COMMAND..: passes where the command does
    if "${@:2}" >"$work/said" 2>&1; then
        passed=$((passed + 1))
    else
        failed=$((failed + 1))
        echo "differs: $1"
        cat "$work/said"
    fi
}
ends() { # STATUS WORDS COMMAND..: ends with that status and says these words
    "${@:3}" >"$work/told" 2>&1 </dev/null
    [ $? -eq "$1" ] && grep -q -- "$2" "$work/told"
}
without_kit() { PATH=/usr/bin:/bin "$@"; }
mkdir "$work/kit"
printf '#!/bin/sh\necho "no verdict"\nexit 3\n' >"$work/kit/rt"
chmod +x "$work/kit/rt"
with_other_kit() { PATH=$work/kit:$PATH "$@"; }
for tool in gcc pkg-config; do
    command -v "$tool" >/dev/null || (apt-get update && apt-get install -y --no-install-recommends "$tool") >/dev/null 2>&1
done

holds "tools/install" tools/install "$work/at"
tools/run sbplist <"$sample" >"$work/listed"
built() {
    PKG_CONFIG_PATH=$work/at/lib/pkgconfig gcc -O2 -o "$work/epochs" link/examples/epochs.c $(PKG_CONFIG_PATH=$work/at/lib/pkgconfig pkg-config --cflags --libs yaqtumeer) &&
        "$work/epochs" "$sample" | cmp - <(grep '^[ET]' "$work/listed")
}
holds "an example built by pkg-config" built
version=$(sed -n 's/^version = "\(.*\)"/\1/p' link/rust/Cargo.toml | head -n 1)
versioned() { [ "$(PKG_CONFIG_PATH=$work/at/lib/pkgconfig pkg-config --modversion yaqtumeer)" = "$version" ] && "$work/at/bin/sbp" --version | grep -q "$version"; }
holds "one version" versioned
listed_by() { "$@" <"$sample" | cmp - "$work/listed"; }
holds "the installed sbplist" listed_by "$work/at/bin/sbplist"
holds "the installed sbp" listed_by "$work/at/bin/sbp" list
found_by() { [ "$("$@" "$sample" HEARTBEAT 1228 4000)" = "F 4422 65535 1228 4" ]; }
holds "the installed sbp finds" found_by "$work/at/bin/sbp" find
holds "tools/install without a prefix" ends 2 "usage" tools/install
holds "tools/run without a program" ends 2 "usage" tools/run
holds "tools/run of no program" ends 127 "no program" tools/run nothing
holds "tools/run without the kit" ends 127 "rt" without_kit tools/run sbplist
holds "tools/prove without the kit" ends 127 "rt" without_kit tools/prove wire
holds "tools/prove of no crate" ends 2 "nothing" tools/prove nothing
holds "tools/prove passes rt's status on" ends 3 "no verdict" with_other_kit tools/prove wire
echo "$passed passed, $failed failed"
[ "$failed" -eq 0 ]
