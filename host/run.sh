#!/bin/sh
# Builds the two static libraries, holds what each exports to its header, compiles the example hosts and the hostile hosts, and runs them: walk and
# draw against what the programs of these names print, even against what generator_run_evenly prints, exceptions against what second/bin/exceptions2 prints of the same lines (host/exceptions.stdout, which second/test holds to it), judge_tape against what program
# judge prints of its stored tapes, the hostile hosts against their stored lines, and stack against the bounds that docs/IMAGE.md and docs/JUDGE-C.md
# state. A line that a hostile host prints is stored in host/NAME.stdout, as it was printed in target/host/NAME.stdout, after somebody has seen why it
# changed. Wants an x86-64 machine, the toolchain, and of Debian gcc, libc6-dev and binutils.
set -eu
here=$(cd "$(dirname "$0")" && pwd)
root=$(cd "$here/.." && pwd)
out=$root/target/host
image=$root/crates/image/out/libimage.a
judge=$root/crates/judge_c/out/libjudge_c.a
cc=${CC:-gcc} nm=${NM:-nm} packages='gcc libc6-dev binutils'
fail() { echo "host/run.sh: $*" >&2; exit 2; }
[ "$(uname -m)" = x86_64 ] || fail "no host for a $(uname -m): the libraries are for x86-64, and the toolchain runs there alone"
command -v rt >/dev/null || fail "no command rt: it builds the static libraries. Put the folder bin/ of the Rattle toolchain on PATH"
for tool in "${cc%% *}" "${nm%% *}"; do
    command -v "$tool" >/dev/null || fail "no command $tool: it is wanted for the C hosts in host/. On Debian: apt-get install $packages. Or set CC and NM"
done
mkdir -p "$out"

# is_fresh FILE: whether it is there, and no source is newer.
is_fresh() {
    [ -e "$1" ] && [ -z "$(find "$root/crates" "$root/crates.txt" -name out -prune -o -newer "$1" -type f \( -name '*.rt' -o -name '*.antt' -o -name crates.txt \) -print | head -n 1)" ]
}
# library CRATE HEADER: proves it and all that it builds on, and builds it, where it is missing or older than a source. The functions of the header are exported, and
# no other symbol is; and nothing is wanted of C but memory copies.
library() {
    made=$root/crates/$1/out/lib$1.a
    if ! is_fresh "$made" && ! (cd "$root/crates/$1" && rt lib) >"$out/$1.log" 2>&1; then
        tail "$out/$1.log" >&2
        fail "rt lib failed in crates/$1; the whole of what it said is in target/host/$1.log"
    fi
    [ -e "$made" ] || fail "rt lib made no $made: crates.txt is to list $1 as a static library ($1 staticlib: ..)"
    sed -n 's/^uint[0-9]*_t \(rvn_[a-z_]*\)(.*/\1/p' "$here/$2" | sort >"$out/$1.declared"
    $nm -g --defined-only "$made" | awk 'NF == 3 { print $3 }' | sort >"$out/$1.exported"
    diff "$out/$1.declared" "$out/$1.exported" >&2 || fail "library $1 exports other functions (>) than host/$2 declares (<)"
    if $nm -u "$made" | awk 'NF == 2 { print $2 }' | sort -u | grep -vx 'memcpy\|memmove\|memset\|memcmp' >"$out/$1.wanted"; then
        fail "library $1 wants more of C than memory copies: $(tr '\n' ' ' <"$out/$1.wanted")"
    fi
}
library image rvn_image.h
library judge_c rvn_judge.h

# host NAME LIBRARY..: compiles it. -static: the loader takes no stack, which stack would count.
host() {
    name=$1
    shift
    $cc -std=c99 -Wall -Wextra -Wpedantic -Werror -O2 -static -I"$here" -o "$out/$name" "$here/$name.c" "$@" ||
        fail "$cc does not build host/$name.c. On Debian it wants: $packages"
}
# hostile_tapes and stack link both libraries at once.
host walk "$image"
host draw "$image"
host even "$image"
host exceptions "$image"
host hostile "$image"
host judge_tape "$judge"
host hostile_tapes "$image" "$judge"
host stack "$image" "$judge"
# runs NAME ARGUMENT..
runs() {
    name=$1
    shift
    "$out/$name" "$@" >"$out/$name.stdout" || { cat "$out/$name.stdout" >&2; fail "host/$name.c failed, as it says above"; }
}
runs walk
runs draw
# The same for many commands: each in one call and in two, and it fails where these differ.
"$out/draw" 20000 >"$out/draw.many" || { tail -n 1 "$out/draw.many" >&2; fail "host/draw.c failed, as it says above"; }
runs even
diff "$root/crates/generator_run_evenly/stdout" "$out/even.stdout" >&2 || fail "host/even.c prints other lines (>) than program generator_run_evenly (<)"
# The rows that the second program's draws of edition 2 are held to; not its single choices, which no call makes.
rows=$root/second/cases/even.txt
sed -n '/^<below /d; s/^<//p' "$rows" | "$out/even" lines >"$out/even.rows" || fail "host/even.c cannot read the rows of second/cases/even.txt"
awk '/^</ { choice = /^<below / } /^>/ && !choice { print substr($0, 2) }' "$rows" | diff - "$out/even.rows" >&2 ||
    fail "host/even.c draws otherwise (>) than second/cases/even.txt says (<)"
runs exceptions <"$here/exceptions.in"
diff "$here/exceptions.stdout" "$out/exceptions.stdout" >&2 || fail "host/exceptions.c prints other lines (>) than second/bin/exceptions2 (<) of host/exceptions.in"
# The two that take longest, beside each other.
runs hostile_tapes &
tapes=$!
runs hostile "$root/crates/kernel_cases/stdin"
wait "$tapes" || exit 2
runs stack
for name in walk draw; do
    sed -n "/^file 00[.]$name\$/,/^file /{/^file /!p;}" "$root/crates/session_cases/stdout" | diff - "$out/$name.stdout" >&2 ||
        fail "host/$name.c prints other lines (>) than program $name (<)"
done
for name in hostile hostile_tapes; do
    diff "$here/$name.stdout" "$out/$name.stdout" >&2 || fail "host/$name.c counts otherwise (>) than host/$name.stdout (<): see why, and store the new line"
done
# The stored tapes by name, and the first, which agrees, by standard input too. The status is 1 where a tape does not agree.
for tape in "$root"/crates/judge_cases/data/*.tape; do
    echo "file ${tape##*/}"
    "$out/judge_tape" "$tape" || [ $? -eq 1 ] || fail "host/judge_tape.c cannot judge ${tape##*/}"
done >"$out/judge_tape.stdout"
diff "$root/crates/judge_cases/stdout" "$out/judge_tape.stdout" >&2 || fail "host/judge_tape.c prints other lines (>) of the stored tapes than program judge (<)"
"$out/judge_tape" <"$root/crates/judge_cases/data/000.tape" >"$out/judge_tape.input" || fail "host/judge_tape.c cannot judge standard input"
sed -n 2,3p "$out/judge_tape.stdout" | diff - "$out/judge_tape.input" >&2 || fail "host/judge_tape.c prints other lines of standard input (>) than of the same file (<)"
# The headers are also C++, together, where there is a compiler.
if echo 'int main(){}' | $cc -x c++ -fsyntax-only - 2>/dev/null; then
    printf '#include "rvn_image.h"\n#include "rvn_judge.h"\n' | $cc -x c++ -std=c++98 -Wall -Wextra -Werror -Wno-long-long -fsyntax-only -I"$here" -
else
    echo "host/run.sh: the headers were not tried as C++: $cc compiles none. On Debian: apt-get install g++" >&2
fi
echo "host: walk, draw, even and exceptions on an image print what the programs print; $(cat "$out/hostile.stdout"); exported: $(tr '\n' ' ' <"$out/image.exported")"
echo "host: judge_tape prints what program judge prints; $(cat "$out/hostile_tapes.stdout"); exported: $(tr '\n' ' ' <"$out/judge_c.exported")"
echo "host: $(cat "$out/stack.stdout")"
