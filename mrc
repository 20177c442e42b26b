#!/bin/sh
# Logs of events, with the proved programs. What is missing or older than its sources is built first.
# usage: mrc replay [LOG]     the program's lines for a log
#        mrc tell [LOG]       the same lines in words: each behind its event, its values by name, refusals with their meaning
#        mrc show [LOG]       a log in words, a record a line
#        mrc make [WORDS]     a log, from such words, to standard output
#        mrc usage            runs the program that uses the library
#        mrc command [NAME]   the command line of a program (replay, usage or calls), a word a line
# Without a file, standard input is read. Status: 0 done; 1 the log (replay, tell) or the words (make) were refused; 2 the command could not
# do its work, and standard error says why.
set -u
here=$(cd "$(dirname "$(readlink -f "$0")")" && pwd) || exit 2
what=${1:-}

stop() { echo "mrc: $1" >&2; exit 2; }
usage() { sed -n '2,/^[^#]/s/^# \{0,1\}//p' "$0" >&2; exit 2; }

# a tool, what it is, and what it is for
need() { command -v "$1" >/dev/null 2>&1 || stop "$1 is missing: $2. '$what' needs it to $3."; }
need_rt() { need rt 'the command of the Rattle toolchain' 'prove and build the programs'; }
need_cargo() { need cargo "Rust's builder" 'build the program in reference/, which has the words'; }

# The toolchain and all sources, as one number; and the program that was made of them: one made of others is not taken for it.
sources() { (cd "$here" && { rt version; find crates.txt crates -type f ! -path '*/must-fail/*' ! -path '*/out/*' -exec sha256sum {} + | sort; } | sha256sum); }
made_of() { echo "$2 $(sha256sum <"$here/target/bin/$1")"; }

# What `rt run` says, as progress: a line for each crate that was proved, and all of it where one was not.
progress() {
    n=0
    began=$(date +%s)
    while IFS= read -r line; do
        case $line in
            'mrc-status 0') echo "mrc: $1 is built"; exit 0 ;;
            mrc-status*) cat "$here/target/made/$1.said"; echo "mrc: $1 is not built, see above"; exit 2 ;;
            'crate '*': modules '*) crate=${line#crate } ;;
            'logic=proved '*)
                n=$((n + 1))
                now=$(date +%s)
                echo "mrc: $n of $2, ${crate%%:*} is proved ($((now - began)) s)"
                began=$now
                ;;
        esac
        printf '%s\n' "$line" >>"$here/target/made/$1.said"
    done
    echo "mrc: $1 is not built, its check was cut off"
    exit 2
} >&2

# Proves and builds a program, where it is not there or is not made of these sources.
build() {
    from=$(sources)
    known=$(cat "$here/target/made/$1" 2>/dev/null)
    [ -x "$here/target/bin/$1" ] && [ "$(made_of "$1" "$from")" = "$known" ] && return
    all=1
    for c in $(sed -n "s/^$1: *//p" "$here/crates.txt"); do [ ! -d "$here/crates/$c" ] || all=$((all + 1)); done
    echo "mrc: building $1: $all crates are to be proved, but for those that have not changed. From nothing it takes some minutes." >&2
    mkdir -p "$here/target/made" && rm -f "$here/target/made/$1" && : >"$here/target/made/$1.said" || stop "$here/target cannot be written"
    # the program is run on no input as soon as it is built; what counts is that it was
    (cd "$here/crates/$1" && rm -f "out/$1" && { rt run </dev/null 2>&1; [ -x "out/$1" ]; echo "mrc-status $?"; }) | progress "$1" "$all" || exit 2
    mkdir -p "$here/target/bin" && cp "$here/crates/$1/out/$1" "$here/target/bin/$1" || stop "$here/target cannot be written"
    made_of "$1" "$from" >"$here/target/made/$1"
}

# one at a time, where the system has a lock
built() {
    need_rt
    mkdir -p "$here/target" || stop "$here/target cannot be made"
    if command -v flock >/dev/null 2>&1; then (flock 9 && build "$1") 9>"$here/target/lock"; else (build "$1"); fi || exit 2
}

# the command line of a program of target/bin: it is built for x86-64
program() { printf '%s\n' "$here/target/bin/$1"; }

# runs a program, behind the words given
run() {
    name=$1
    shift
    while IFS= read -r word; do set -- "$@" "$word"; done <<END
$(program "$name")
END
    "$@"
}

reference() {
    need_cargo
    binary=$here/reference/target/release/reference
    [ -x "$binary" ] || echo 'mrc: building the program in reference/, some ten seconds, once' >&2
    (cd "$here/reference" && cargo build --release --offline --quiet) || stop 'the program in reference/ does not build, see above'
    "$binary" "$@"
}

# At most so many bytes of the input, in a file of its own, so that what cannot be read is never taken for an input that ends.
take() {
    name=${2:-standard input}
    [ $# -eq 2 ] && from=$2 || from=/dev/stdin
    [ -e "$from" ] || stop "$name is not there"
    [ ! -d "$from" ] || stop "$name is a directory, and no log or words"
    [ -r "$from" ] || stop "$name may not be read"
    kept=$(mktemp -d) || stop 'there is no room for a copy of the input'
    trap 'rm -rf "$kept"' EXIT
    trap 'exit 2' HUP INT TERM
    if [ $# -eq 2 ]; then head -c "$1" <"$2"; else head -c "$1"; fi >"$kept/input" 2>"$kept/why" || stop "$name cannot be read: $(cat "$kept/why")"
}

longest=32768
words=16777216

case $what in
    replay | tell | show | make) [ $# -le 2 ] || usage ;;
    usage) [ $# -eq 1 ] || usage ;;
    command) [ $# -le 2 ] || usage ;;
    *) usage ;;
esac
[ "$what" = usage ] || [ "$what" = command ] || shift
case $what in
    replay)
        take $((longest + 1)) "$@"
        built replay
        run replay <"$kept/input" >"$kept/text" || stop "the program ended with status $?"
        cat "$kept/text"
        ! tail -n 1 "$kept/text" | grep -q '^log '
        ;;
    tell)
        need_cargo
        take $((longest + 1)) "$@"
        built replay
        run replay reference tell <"$kept/input"
        ;;
    show)
        take $((longest + 1)) "$@"
        reference show <"$kept/input"
        ;;
    make)
        take $((words + 1)) "$@"
        [ "$(wc -c <"$kept/input")" -le $words ] || stop "more than $words bytes of words are not taken"
        reference make <"$kept/input"
        ;;
    usage)
        built usage
        run usage
        ;;
    command)
        name=${2:-replay}
        [ -f "$here/crates/$name/src/main.rt" ] || stop "$name is no program; replay, usage and calls are"
        built "$name"
        program "$name"
        ;;
esac
