# What the benches share. Each bench/NAME/run reads this file, in the repository's root.
out=target/bench
mkdir -p "$out"
me=$0

# wanted COMMAND..: the machine and the commands that a bench wants.
wanted() {
    if [ "$(uname -m)" != x86_64 ]; then
        echo "$me: this is $(uname -m); what the toolchain builds is x86-64 code. Run it there." >&2
        exit 2
    fi
    for command in rt gcc python3 "$@"; do
        command -v "$command" >/dev/null || { echo "$me: $command is missing; install it and run this again." >&2; exit 3; }
    done
}

# is_fresh FILE: whether it is there, and no source is newer.
is_fresh() {
    [ -e "$1" ] && [ -z "$(find crates crates.txt -name out -prune -o -newer "$1" -type f \( -name '*.rt' -o -name '*.antt' -o -name crates.txt \) -print | head -n 1)" ]
}

# by_rt CRATE FILE WORD..: crates/CRATE/out/FILE, proved and built by this command of rt where it is missing or older than a source.
by_rt() {
    crate=$1 file=crates/$1/out/$2
    shift 2
    if is_fresh "$file"; then return; fi
    (cd "crates/$crate" && rt "$@" </dev/null) >"$out/$crate.log" 2>&1 ||
        { tail -n 5 "$out/$crate.log" >&2; echo "$me: $crate was not built; all that rt said is in $out/$crate.log" >&2; exit 1; }
}

# proved PROGRAM: crates/PROGRAM/out/PROGRAM. rt runs what it builds, too.
proved() { by_rt "$1" "$1" run; }

# archive LIBRARY: crates/LIBRARY/out/libLIBRARY.a
archive() { by_rt "$1" "lib$1.a" lib; }

# start PROGRAM: the words by which a proved program is started: those of ./run are one program, in target/run/, which asks which of them.
start() {
    case $1 in
    walk | draw | judge) echo "target/run/programs $1" ;;
    *) echo "crates/$1/out/$1" ;;
    esac
}

# programs: walk, draw and judge as ./run builds them, proved.
programs() {
    ./run build >"$out/programs.log" 2>&1 || { tail -n 5 "$out/programs.log" >&2; echo "$me: the programs were not built; all that ./run said is in $out/programs.log" >&2; exit 1; }
}

# in_c NAME SOURCE: builds a source in C as target/bench/c_NAME.
in_c() {
    gcc -O2 -std=gnu99 -Wall -Wextra -Werror -o "$out/c_$1" "$2"
}

# same PROGRAM INPUT: both print the same, byte for byte; the C's is left in target/bench/c.out.
same() {
    $(start "$1") <"$2" >"$out/rattle.out"
    "$out/c_$1" <"$2" >"$out/c.out"
    cmp "$out/rattle.out" "$out/c.out"
}

# counts: whether instructions are counted. They are where valgrind is there, and not where COUNT=no asks for a short run.
counts() { [ "${COUNT:-yes}" != no ] && command -v valgrind >/dev/null; }

# instructions PROGRAM UNIT MANY SHORT LONG: the instructions for one UNIT: what LONG takes more than SHORT, which is LONG without its last MANY.
instructions() {
    if counts; then
        for program in "$out/c_$1" "$(start "$1")"; do
            echo "$program: $((($(counted "$program" "$5") - $(counted "$program" "$4")) / $3)) instructions a $2"
        done
    fi
}
counted() {
    valgrind --tool=callgrind --callgrind-out-file=/dev/null $1 <"$2" 2>&1 >/dev/null | sed -n 's/.*I *refs: *//p' | tr -d ,
}
