# Finds a program of these sources, for ./moveledger and scripts/program: they set $top to the clone's folder, with its whole path.
#
# Beside a program that was seen to be of these sources stands a list of them, files and folders: `.seen`. Where nothing of the list has
# changed since it was written, the program is taken, and nothing is looked at closer. What counts is the time that the file system
# keeps of each change itself, which no copy and no `touch` sets back: an edit is seen, also one of the same size with its old time set
# again, and so is a file that is new, gone or renamed. Not seen is what was changed while the clock was set back to before the list
# was written, once it has passed that time again. Where something has changed, checksums are compared, as the first time.

built=$top/crates/moveledger_program/out/moveledger_program
dist=$top/dist/moveledger
looker=$top/out/is_unchanged

say() {
    echo "moveledger: $1" >&2
}

# What is listed: all that the program is built from, and the folders in which more may come.
sources() {
    find crates.txt HANDLES crates -regex 'crates/[^/]*/\(out\|must-fail\)' -prune -o "$@"
}

# Whether nothing of a list has changed since it was written: each name takes one system call, also where find reads no lists. What is
# made of scripts/is_unchanged.c takes half of find's time; where it doesn't run, as on another machine, find is asked.
is_unchanged_since() {
    [ -e "$1" ] || return 1
    if [ -x "$looker" ]; then
        "$looker" "$top" "$1" 2>/dev/null
        case $? in 100) return 0 ;; 101) return 1 ;; esac
    fi
    [ -z "$(cd "$top" && {
        find -files0-from "$1" -maxdepth 0 \( -cnewer "$1" -o -newerct now \) -print -quit || xargs -0 sh -c '
            list=$1 && shift && exec find "$@" -maxdepth 0 \( -cnewer "$list" -o -newerct now \) -print -quit
        ' sh "$1" < "$1"
    } 2>/dev/null || echo unknown)" ]
}

# Makes what looks through lists, where there is a C compiler and one may write to the clone. Its source is in each list. It starts sooner
# without libraries to load.
make_looker() {
    rm -f "$looker" && mkdir -p "$top/out" || return
    set -- -O2 -o "$looker.$$" "$top/scripts/is_unchanged.c"
    { cc -static "$@" || cc "$@"; } && mv -f "$looker.$$" "$looker"
}

# Writes a list of the sources. Its time lies before all that is looked at afterwards, though the clock of a file system may be behind.
write_list() {
    (cd "$top" && sources -print0) 2>/dev/null > "$1" || return 1
    sleep 0.05 2>/dev/null || sleep 1
}

# Puts a list beside a program that was seen to be of these sources after the list was written, unless something has changed meanwhile.
# From then on the program itself may not change either.
keep_list() {
    make_looker 2>/dev/null
    { cat "$1" && printf '%s\0' scripts/is_unchanged.c "$2"; } > "$1.whole" && is_unchanged_since "$1" && mv -f "$1.whole" "$2.seen" && rm -f "$1"
}

# What dist/ says of its sources, or of its program.
told() {
    sed -n "s/^$1 //p" "$dist.sums"
}

is_told() {
    [ -f "$1" ] && [ "$(sha256sum < "$1" | cut -d' ' -f1)" = "$(told program)" ]
}

# The rooms by their numbers: the clone's own, and where that can't be written to, one in the user's cache. There $own is the folder
# that has to be this user's.
room() {
    own=
    case $1 in
    1) room=$top/out/dist ;;
    2) own=$XDG_CACHE_HOME/moveledger ;;
    3) own=${HOME:+$HOME/.cache/moveledger} ;;
    4) own=${TMPDIR:-/tmp}/moveledger-$(id -u) ;;
    esac
    case $own in
    "") [ "$1" = 1 ] ;;
    /moveledger) return 1 ;;
    /*) room=$own$(cd "$top" && pwd -P) ;;
    *) return 1 ;;
    esac
}

# Whether no one else may write to a room of the user's cache, or put another in its place.
is_own() {
    [ -z "$own" ] || { [ -d "$own" ] && [ ! -L "$own" ] && [ -O "$own" ] &&
        [ -z "$(find "$own" -maxdepth 0 -perm /022 -print; find -H "${own%/*}" -maxdepth 0 -perm -0002 ! -perm -1000 -print)" ]; }
}

# Finds a program of the user's cache, which is believed only by its checksum.
is_cached() {
    for number in 2 3 4; do
        room $number && [ -f "$room/moveledger" ] && is_own && is_unchanged_since "$room/moveledger.seen" && is_told "$room/moveledger" &&
            program=$room/moveledger && return
    done
    return 1
}

# Makes the room of a number, where one may write to it and trust what stands there.
has_room() {
    room "$1" || return 1
    { [ -z "$own" ] || (umask 077 && mkdir -p "$own"); } 2>/dev/null && is_own && mkdir -p "$room" 2>/dev/null && [ -w "$room" ]
}

# Unpacks the program of dist/ in a room, and gives it a name there if it runs.
is_unpacked() {
    if ! { gzip -dc "$dist.gz" > "$new"; } 2>/dev/null || ! is_told "$new"; then
        say "dist/moveledger.gz isn't the program that dist/moveledger.sums names"
        return 1
    fi
    chmod 755 "$new"
    if ! "$new" apply /dev/null > /dev/null 2>&1; then
        say "the program of dist/, which is for x86-64 Linux with glibc, doesn't run in $room"
        return 1
    fi
    mv -f "$new" "$1"
}

is_of_dist() {
    [ "$("$top/scripts/sources-sum")" = "$(told sources)" ]
}

# Takes the program of dist/ to the first room in which it runs: where it is of these sources, or with the word `any` whatever its
# sources are. The list of sources is written before these are looked at.
is_taken() {
    [ -r "$dist.gz" ] && [ -r "$dist.sums" ] || return 1
    for number in 1 2 3 4; do
        has_room $number || continue
        new=$room/new.$$
        trap 'rm -f "$new" "$new.list" "$new.list.whole" "$looker.$$"' EXIT
        if [ "$1" = any ]; then
            program=$room/other
            is_told "$program" || is_unpacked "$program" || continue
            return 0
        fi
        program=$room/moveledger
        write_list "$new.list" || continue
        is_of_dist || { [ "$1" = quietly ] || say "dist/ has the program of other sources"; return 1; }
        is_unpacked "$program" && keep_list "$new.list" "$program" && return 0
    done
    say "the program of dist/ can't be unpacked: neither in out/dist nor in a cache that is the user's own"
    return 1
}

# Whether the program that was built here is of these sources, by their checksums.
is_built() {
    [ -x "$built" ] || return 1
    write_list "$built.$$" && trap 'rm -f "$built.$$" "$built.$$.whole" "$looker.$$"' EXIT
    "$top/scripts/build" --is-built && program=$built && { keep_list "$built.$$" "$built" || true; }
}

# Sets $program to one of these sources that needn't be built. With the word `quietly` it doesn't say that dist/ has another one.
find_program() {
    for program in "$built" "$top/out/dist/moveledger"; do
        [ -x "$program" ] && is_unchanged_since "$program.seen" && return
    done
    is_cached || is_built || is_taken "$1"
}
