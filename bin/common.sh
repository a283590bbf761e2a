# What the commands in bin/ share. It is read by `.`, and not run; `top` is the folder above bin/.

# The line of the Rattle kit that everything here is proved and built with.
kit='rattle-kit-13'

# say TEXT..: writes a line to standard error, under the name of the command.
say() {
    printf '%s: %s\n' "bin/$(basename -- "$0")" "$*" >&2
}

# take_no_words WORD..: ends if the command was given words, of which it takes none.
take_no_words() {
    [ $# -eq 0 ] && return
    say "takes no words; what it does stands at the front of the file"
    exit 2
}

# has_rt [TEXT]: whether the toolchain's command `rt` is on PATH. If not, says after the text how to get it.
has_rt() {
    command -v rt >/dev/null && return
    say "$1the toolchain's command 'rt' is not on PATH." \
        "Install the Rattle kit, line $kit, and put its folder bin on PATH."
    return 1
}

# crates_of NAME: the crate and all crates of this repository that it depends on, a line each.
crates_of() {
    awk -v top="$1" '
        /^[a-z]/ {
            name = $1
            sub(/:$/, "", name)
            for (i = 2; i <= NF; i++) below[name] = below[name] " " $i
            listed[name] = 1
        }
        END {
            want[top] = 1
            left = top
            while (left != "") {
                next_ones = ""
                n = split(left, names, " ")
                for (i = 1; i <= n; i++) {
                    m = split(below[names[i]], deps, " ")
                    for (k = 1; k <= m; k++)
                        if (listed[deps[k]] && !want[deps[k]]) {
                            want[deps[k]] = 1
                            next_ones = next_ones " " deps[k]
                        }
                }
                left = next_ones
            }
            for (name in want) print name
        }' crates.txt
}

# lines_of NAME: the lines of crates.txt of the crate NAME and of all that it depends on, in one order everywhere.
lines_of() {
    for crate in $(crates_of "$1" | LC_ALL=C sort); do
        grep "^$crate[ :]" crates.txt
    done
}

# sources_of NAME: the files that the crate NAME is made from, a line each, in one order everywhere.
sources_of() {
    for crate in $(crates_of "$1" | LC_ALL=C sort); do
        find "crates/$crate" \( -name out -o -name must-fail \) -prune -o \
            \( -name '*.rt' -o -name '*.antt' \) -type f -print
    done | LC_ALL=C sort
}

# digest_of NAME: one checksum over the kit's line, the lines of crates.txt, and the names and contents of all that the
# crate NAME is made from.
digest_of() {
    {
        echo "$kit"
        lines_of "$1"
        sources_of "$1" | tr '\n' '\0' | xargs -0 sha256sum
    } | sha256sum | cut -d ' ' -f 1
}

# What is released, a line each: its name, the crate that it is made from, and the file that the gate makes of that.
release_table() {
    cat <<'END'
evc evc crates/evc/out/evc
evc-draw evc_draw crates/evc_draw/out/evc_draw
evc-calls evc_calls crates/evc_calls/out/evc_calls
evc-explain evc_explain crates/evc_explain/out/evc_explain
libevc evc_c crates/evc_c/out/libevc_c.a
END
}

# crate_released NAME: the crate that it is made from.
crate_released() {
    release_table | awk -v name="$1" '$1 == name { print $2 }'
}

# place_of NAME: where its release for x86-64 Linux is: packed as .gz, and next to it the checksum of what was packed and
# the digest of the sources that it was built from.
place_of() {
    echo "$top/release/$1-x86_64-linux"
}

# is_release_of NAME: whether there is a release of it that was built from the sources as they are here.
is_release_of() {
    [ -f "$(place_of "$1").gz" ] &&
        [ "$(cd "$top" && digest_of "$(crate_released "$1")")" = "$(cat "$(place_of "$1").sources" 2>/dev/null)" ]
}

# unpack_release NAME FILE: unpacks its release into the file, and fails if that doesn't have the checksum.
unpack_release() {
    gzip -dc "$(place_of "$1").gz" >"$2" 2>/dev/null &&
        [ "$(sha256sum <"$2" | cut -d ' ' -f 1)" = "$(cat "$(place_of "$1").sha256" 2>/dev/null)" ]
}

# whole_of NAME FILE: copies what is released under the name, as the gate has just made it, to the file.
whole_of() {
    case $1 in
    lib*) whole_library "$2" ;;
    *) cp "$top/$(release_table | awk -v name="$1" '$1 == name { print $3 }')" "$2" ;;
    esac
}

# whole_library FILE: puts the library that the gate has built, and the three functions of the toolchain by which it
# allocates, into one archive.
whole_library() {
    folder=$(dirname -- "$(rt doc)") || return 1
    rm -f "$1"
    "$folder/toolchain/bin/llvm-ar" qcLD "$1" "$top/crates/evc_c/out/libevc_c.a" "$folder/c/liblibc_c.a"
}

# How long a first build takes. A command that sets it also says on a terminal that it took the release, and how far a
# build is.
minutes=

# start NAME WORD..: runs the program of this name. If nothing that it is made from is newer than the program, it is
# started at once. Otherwise it is taken from release/, if that is of these sources and this machine can run it.
# Otherwise, or with EVC_BUILD=1, it is proved and built first, which needs the toolchain's command `rt`: standard error
# says so, and the log is out/NAME.log. The arguments, the three standard streams and the exit status are the program's
# own, except for these:
# 127  the program has to be built, and `rt` is not on PATH
# 130  the build was stopped by a signal
# 70   the program was not proved or not built
start() {
    started=$1
    shift
    released=$top/out/$started
    if [ -z "${EVC_BUILD:-}" ] && is_newest "$released" release; then
        exec "$released" "$@"
    fi
    crate=$(crate_released "$started")
    built=$top/crates/$crate/out/$crate
    log=$released.log
    lock=$released.lock
    program=$built
    if ! is_newest "$built"; then
        if [ -z "${EVC_BUILD:-}" ] && take_release; then
            program=$released
        else
            build
            exec 9>&-
        fi
    fi
    exec "$program" "$@"
}

# is_newest PROGRAM [FOLDER]: whether the program exists, and nothing in the folder and nothing that it is made from is
# newer. A folder is newer if a file was moved into it or out of it. No quicker test is needed: this takes milliseconds.
is_newest() {
    [ -x "$1" ] || return 1
    newer=$(
        cd "$top" && find crates.txt crates ${2:+"$2"} \
            \( -name out -o -name must-fail \) -prune -o \
            \( -type f \! -path 'crates/*' -o -name '*.rt' -o -name '*.antt' -o -type d -path 'crates/*/*' \) \
            -newer "$1" -print 2>/dev/null | head -n 1
    )
    [ -z "$newer" ]
}

# begin: makes the folder for what is unpacked or built, and a file with the current date. The program gets that date, so
# that a file which is edited in the meantime counts as newer.
begin() {
    if ! mkdir -p "$top/out" || ! (: >>"$lock"); then
        say "cannot write to $top/out"
        exit 70
    fi
    touch "$lock"
}

# take_release: takes the program of the release, if it is that of these sources and this machine can run it.
take_release() {
    [ "$(uname -s -m)" = 'Linux x86_64' ] && is_release_of "$started" || return 1
    begin
    fresh=$released.$$
    if unpack_release "$started" "$fresh" && chmod +x "$fresh" && "$fresh" --help >/dev/null 2>&1 &&
        touch -r "$lock" "$fresh" && mv -f "$fresh" "$released"; then
        [ ! -t 2 ] || remark "this is the program of release/, built from exactly these sources" \
            "(EVC_BUILD=1 proves and builds it here)"
        return 0
    fi
    rm -f "$fresh"
    say "the program of release/ is damaged, or this machine can't run it"
    return 1
}

# remark TEXT..: says what only a command says that has set `minutes`.
remark() {
    [ -z "$minutes" ] || say "$@"
}

# progress SECONDS: says how far the build is, by its log: the crates that are done, and their functions.
progress() {
    # (after the last crate comes a summary)
    done_so_far=$(grep '^== [a-z]' "$log" | grep -vc '^== summary')
    functions=$(grep -c '^fn .*: proved$' "$log")
    say "$done_so_far of $(cd "$top" && crates_of "$crate" | wc -l) crates done, $functions functions proved," \
        "$(($1 / 60)) min $(($1 % 60)) s gone"
}

# watch_build PROCESS: says how far the build is until the process ends: every few seconds on a terminal, otherwise every
# minute.
watch_build() {
    pause=60
    [ -t 2 ] && pause=5
    began=$(date +%s)
    last=$began
    while kill -0 "$1" 2>/dev/null; do
        sleep 1
        now=$(date +%s)
        if [ $((now - last)) -ge $pause ]; then
            last=$now
            progress $((now - began))
        fi
    done
}

# lanes: how many crates may be proved in parallel: one for each processor, if each has some 4 GB of free memory.
lanes() {
    processors=$(nproc 2>/dev/null || echo 2)
    room=$(awk '/^MemAvailable/ { print int($2 / 4000000) }' /proc/meminfo 2>/dev/null)
    [ "${room:-1}" -ge "$processors" ] || processors=${room:-1}
    [ "$processors" -ge 1 ] || processors=1
    echo "$processors"
}

# prove_and_link: proves all crates that the program depends on, in parallel as far as their order allows, and links it.
# What is proved is kept, so a build that was stopped continues where it was.
prove_and_link() {
    trap 'kill "$step"; exit 1' TERM
    cd "$top/crates/$crate" || exit 1
    rt all check --jobs "$(lanes)" &
    step=$!
    wait "$step" || exit 1
    rt run -- --help &
    step=$!
    wait "$step"
}

# build: proves and builds the program, one build at a time. (Without `flock`, rt itself lets a second run wait.)
build() {
    has_rt 'the program has to be built, and ' || exit 127
    begin
    exec 9>>"$lock"
    if command -v flock >/dev/null && ! flock -n 9; then
        remark 'waiting for the build that is under way'
        flock 9
    fi
    is_newest "$built" && return

    say "proving and building the program first${minutes:+ ($minutes from nothing on 4 cores)}; its log is $log"
    touch "$lock"
    prove_and_link </dev/null >"$log" 2>&1 9>&- &
    builder=$!
    trap 'kill "$builder"; remark "stopped; the next call goes on from here"; exit 130' INT TERM HUP
    [ -z "$minutes" ] || watch_build "$builder"
    if wait "$builder" && touch -r "$lock" "$built"; then
        trap - INT TERM HUP
        return
    fi
    tail -n 40 "$log" >&2
    say "the program was not built (line $kit is needed, and this is '$(rt version 2>/dev/null)');" \
        "above is the end of $log"
    exit 70
}
