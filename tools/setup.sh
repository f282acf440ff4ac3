# shellcheck shell=sh disable=SC2034 # the scripts that source this use the variables
# Sourced by the scripts: which compilers and emulator serve, what to install, how library and programs are built. Its functions run at the root.
# What is built stands in build/, which rt leaves alone, each thing beside a sum of the contents that it was made from.

# shellcheck source=tools/messages.sh
. "${ROOT:-.}/tools/messages.sh"

# The archive is for x86-64; on another machine the programs are built by a cross compiler, linked whole, and run by an emulator.
case $(uname -m) in
x86_64 | amd64) CC=gcc CXX=g++ LINK='' RUN='' ;;
*) CC=x86_64-linux-gnu-gcc CXX=x86_64-linux-gnu-g++ LINK=-static RUN=qemu-x86_64 ;;
esac
WARNINGS='-Wall -Wextra -Wpedantic -Wconversion -Wshadow -Werror'
BUILD=build
LIBRARY=$BUILD/libtrestlepip.a
# The crate that the archive is made of: the static library over trestlepip.
EXPORTS=trestlepip_c
LEVEL=-O2
TRAPS=''

# The command that the messages are of: the one that someone called, also where it calls another script.
SAYS=${SAYS:-${0##*/}}
export SAYS

warn() { # FORMAT WORD...
    format=$1
    shift
    # shellcheck disable=SC2059
    printf "$SAYS: $format\n" "$@" >&2
}

stop() { # FORMAT WORD...
    warn "$@"
    exit 1
}

# Ends what is left of the session.
end_session() { kill -s TERM -- "-$child" 2>/dev/null || :; }

# Runs a command in a session of its own, which ends whole: with the command, which may leave something behind, or with this script.
guarded() { # COMMAND WORD...
    setsid "$@" &
    child=$!
    trap 'end_session; exit 129' HUP
    trap 'end_session; exit 130' INT
    trap 'end_session; exit 143' TERM
    ended=0
    wait "$child" || ended=$?
    end_session
    trap - HUP INT TERM
    return "$ended"
}

# The Debian packages that a command needs; a compiler is no use without its C library.
package_of() { # COMMAND
    case $1 in
    gcc) echo gcc libc6-dev ;;
    x86_64-linux-gnu-gcc) echo gcc-x86-64-linux-gnu libc6-dev-amd64-cross ;;
    x86_64-linux-gnu-g++) echo g++-x86-64-linux-gnu ;;
    qemu-x86_64) echo qemu-user ;;
    *) echo "$1" ;;
    esac
}

# Installs Debian packages where that may be done without asking, and else says how.
install_packages() { # PACKAGE...
    command -v apt-get >/dev/null || stop "$says_missing" "$*" "$*"
    if [ "$(id -u)" -eq 0 ]; then as=''; elif sudo -n true 2>/dev/null; then as='sudo -n'; else stop "$says_missing" "$*" "$*"; fi
    warn "$says_installing" "$*"
    $as apt-get -qq update >/dev/null || :
    $as env DEBIAN_FRONTEND=noninteractive apt-get -qq -y install "$@" >/dev/null || stop "$says_missing" "$*" "$*"
}

# Sees to it that each of these commands is there.
need() { # COMMAND...
    missing=''
    for c; do
        command -v "$c" >/dev/null && continue
        [ "$c" != rt ] || stop "$says_no_rt"
        missing="$missing $(package_of "$c")"
    done
    # shellcheck disable=SC2086
    [ -z "$missing" ] || install_packages $missing
}

# The sum of the contents of these files and of all below these folders, with their names; wrong edits, and what rt keeps, are no part of a crate.
sum_of() { # FILE | FOLDER...
    find "$@" \( -name must-fail -o -name out \) -prune -o -type f -print | LC_ALL=C sort | tr '\n' '\0' | xargs -0 sha256sum | sha256sum | cut -d' ' -f1
}

# Whether the file that is built was built with this sum.
is_fresh() { # FILE SUM
    [ -e "$1" ] && [ "$(cat "$1.sum" 2>/dev/null)" = "$2" ]
}

# Puts a built file in its place, in one step, so that a program that runs or starts meanwhile has the old one or the new one whole.
put() { # NEW FILE SUM
    rm -f "$2.sum"
    mv "$1" "$2"
    echo "$3" >"$2.sum"
}

# Sees to it that a folder is there and can be written.
need_folder() { # FOLDER
    mkdir -p "$1" 2>/dev/null || stop "$says_not_writable" "$1"
    [ -w "$1" ] || stop "$says_not_writable" "$1"
}

# Goes on when no other script builds here, until unlock.
lock() {
    need_folder "$BUILD"
    exec 9>"$BUILD/lock"
    flock -n 9 || { warn "$says_waiting"; flock 9; }
}

unlock() { exec 9>&-; }

# The crate that rt lib has come to.
rt_is_at() {
    { echo "$EXPORTS"; sed -n 's/^rt: chose --jobs [0-9]* for //p; s/^rt: \([a-z_0-9]*\): begins with .*/\1/p' "$BUILD/rt.out"; } | tail -n 1
}

# Says what rt is at and for how long so far: on a terminal in one line that is written anew, else every 30 s. Ends with the script that called it.
watch_rt() { # COMMAND WORD...
    began=$(date +%s) ticks=0
    while sleep 1 >/dev/null 2>&1 && kill -0 $$ 2>/dev/null; do
        ticks=$((ticks + 1))
        # shellcheck disable=SC2059
        line=$(printf "$says_proving" "$("$@")" $(($(date +%s) - began)))
        if [ -t 2 ]; then printf '\r\033[K%s' "$line" >&2; elif [ $((ticks % 30)) -eq 1 ]; then echo "$line" >&2; fi
    done
}

# Shows on standard error what rt is at, which the command says, until end_progress.
show_progress() { # COMMAND WORD...
    watch_rt "$@" 9>&- &
    watcher=$!
}

end_progress() {
    kill "$watcher"
    wait "$watcher" 2>/dev/null || :
    [ ! -t 2 ] || printf '\r\033[K' >&2
}

# The crates of the repository that a crate stands on, directly or through others.
below() { # NAME
    awk -F: -v name="$1" '
        function visit(one,    n, i, use) {
            n = split(uses[one], use, " ")
            for (i = 1; i <= n; i++) if (use[i] in uses && !(use[i] in met)) { met[use[i]]; visit(use[i]); print use[i] }
        }
        { sub(/#.*/, "") }
        NF > 1 { split($1, word, " "); uses[word[1]] = $2 }
        END { visit(name) }
    ' crates.txt
}

# The sum of a crate and of those that it stands on.
crate_sum() { # NAME
    # shellcheck disable=SC2046
    sum_of crates.txt $(for one in "$1" $(below "$1"); do echo "crates/$one"; done)
}

# Whether the library's archive is that of the sources as they are.
is_built() { is_fresh "$LIBRARY" "$(crate_sum "$EXPORTS")"; }

# Has the library proved, with the crates that it stands on, and its archive made, for any x86-64 processor: left to itself rt asks for one of level v2,
# with which the library is slower. What rt says is kept, and shown if it refuses.
make_library() {
    need rt
    sum=$(crate_sum "$EXPORTS") status=0
    : >"$BUILD/rt.out"
    show_progress rt_is_at
    (cd "crates/$EXPORTS" && rt lib --cpu=x86-64) >"$BUILD/rt.out" 2>&1 || status=$?
    end_progress
    [ "$status" -eq 0 ] || { cat "$BUILD/rt.out" >&2; stop "$says_refused"; }
    cp "crates/$EXPORTS/out/lib$EXPORTS.a" "$BUILD/new.a"
    put "$BUILD/new.a" "$LIBRARY" "$sum"
}

# The library, unless it is built.
build_library() {
    ! is_built || return 0
    lock
    is_built || make_library
    unlock
}

# What a program's sum is over, source by source: the whole folder, where its headers stand too; of what is itself built, the file alone.
made_from() { # SOURCE...
    for source; do
        case $source in
        "$LIBRARY") ;;
        "$BUILD"/*) echo "$source" ;;
        *) dirname "$source" ;;
        esac
    done | sort -u
}

# The sum of what a program is made from: its options, its sources, the library.
program_sum() { # SOURCE...
    {
        echo "$CC $LEVEL $TRAPS $LINK $*"
        # shellcheck disable=SC2046
        sum_of include $(made_from "$@")
        cat "$LIBRARY.sum"
    } | sha256sum | cut -d' ' -f1
}

# Compiles and links a program from these sources and archives, unless it is built. LEVEL is how much the compiler optimises, TRAPS are options of the tests.
build() { # NAME SOURCE...
    program=$BUILD/$1
    shift
    sum=$(program_sum "$@")
    ! is_fresh "$program" "$sum" || return 0
    need "$CC"
    need_folder "${program%/*}"
    # shellcheck disable=SC2086
    "$CC" -std=c11 "$LEVEL" $WARNINGS -Wstrict-prototypes -Wmissing-prototypes $TRAPS $LINK -Iinclude -I"$BUILD" -o "$program.$$" "$@" ||
        stop "$says_not_compiled" "${program##*/}"
    put "$program.$$" "$program" "$sum"
}

# What each program is made of, but for the library and the second program.
HOST='host/weights.c host/sheets.c host/spool.c host/show.c host/report.c host/text.c'
MORNING="host/morning.c $HOST"
REFUSALS="host/test_refusals.c host/test_checks.c host/test_pages.c host/test_show.c host/test_memory.c host/test_run.c $HOST"
SECOND='tests/second/second.c tests/second/state.c tests/second/stations.c tests/second/form.c tests/second/line.c tests/second/copies.c tests/second/feet.c'
GENERATOR='tests/second/calls.c tests/second/station_calls.c tests/second/feet_calls.c tests/second/chance.c tests/second/look.c tests/second/damage.c'
RECORDS='tests/second/records.c tests/second/fcb_records.c tests/second/legend_records.c'
COMPARISON='tests/second/compare.c tests/second/report.c tests/second/page_law.c tests/second/feet_law.c tests/second/skip_law.c tests/second/counts.c tests/second/counts_pages.c tests/second/counts_feet.c tests/second/counts_skips.c tests/second/counts_table.c tests/second/table.c'
LISTS='tests/second/run.c tests/second/lent.c tests/second/programs.c tests/second/long_list.c tests/second/demand3.c tests/second/pair.c'
DRIVE="tests/second/drive.c tests/second/script.c tests/second/script_read.c tests/second/script_tell.c $LISTS $COMPARISON $GENERATOR $RECORDS"
BENCH='benches/bench.c benches/works.c benches/sides.c benches/plain.c'
