# shellcheck shell=bash
# For ./jallumere: what it says, the commands that it starts and ends, and the lock on the folder that it builds in.

say() { printf 'jallumere: %s\n' "$*" >&2; }

stop() {
    say "$*"
    end_children
    release_lock
    exit 2
}

has() { command -v "$1" >/dev/null 2>&1; }

# ---- what is started

children=()

# Starts a command in a process group of its own, so that it can be ended with all that it has started. It does not hold
# the lock, which ends with this script.
start() {
    set -m
    "$@" </dev/null 9<&- &
    set +m
    children+=("$!")
}

# Waits for the command that was started last, and gives its status.
finished() {
    local last=$((${#children[@]} - 1)) status
    wait "${children[last]}"
    status=$?
    unset "children[last]"
    return "$status"
}

end_children() {
    local child turn
    for child in ${children[@]+"${children[@]}"}; do
        kill -TERM -- "-$child" 2>/dev/null
        for ((turn = 0; turn < 20; turn++)); do
            kill -0 -- "-$child" 2>/dev/null || break
            sleep 0.1
        done
        kill -KILL -- "-$child" 2>/dev/null
    done
    children=()
}

# Ends as the signal would have it, and what was started before it.
ended_by() {
    trap '' HUP INT PIPE TERM
    end_children
    release_lock
    trap - HUP INT PIPE TERM
    kill -s "$1" $$
    exit 2
}

for signal in HUP INT PIPE TERM; do
    # shellcheck disable=SC2064
    trap "ended_by $signal" "$signal"
done

# ---- the folder that is built in

# The tree itself, or the folder that JALLUMERE_BUILD names.
name_place() {
    place=$tree
    [ -z "${JALLUMERE_BUILD:-}" ] || place=$(readlink -m -- "$JALLUMERE_BUILD")
    built=$place/target/hosts
    archive=$place/target/staticlib/libreplica.a
}

# Takes the lock and makes the folders.
open_place() {
    name_place
    mkdir -p "$place" 2>/dev/null
    [ -d "$place" ] && [ -w "$place" ] || stop "the folder '$place' cannot be written to; JALLUMERE_BUILD=DIR builds in DIR"
    take_lock
    mkdir -p "$built" || stop "'$built' cannot be made; JALLUMERE_BUILD=DIR builds in DIR"
    [ "$place" = "$tree" ] || copy_crates
}

# rt writes beside what it reads, each crate's out/. So elsewhere than in the tree it reads a copy, which is made again for
# each run but for what rt has written there.
copy_crates() {
    local crate name
    [ -L "$place/crates" ] && rm "$place/crates" "$place/crates.txt" "$place/KIT" # links, as this script once made them
    [ -e "$place/target/hosts/copied" ] || [ ! -e "$place/crates" ] ||
        stop "JALLUMERE_BUILD: '$place/crates' is there and is no copy of this tree's; a folder is wanted that has nothing else in it"
    : >"$place/target/hosts/copied" && mkdir -p "$place/crates" && cp -f "$tree/crates.txt" "$tree/KIT" "$place" ||
        stop "JALLUMERE_BUILD: '$place/crates' cannot be made"
    chmod u+w "$place/crates.txt" "$place/KIT"
    for crate in "$place"/crates/*/; do
        name=${crate%/}
        [ -d "$tree/crates/${name##*/}" ] || rm -rf "$crate"
    done
    for crate in "$tree"/crates/*/; do
        name=$place/crates/$(basename "$crate")
        mkdir -p "$name" && find "$name" -mindepth 1 -maxdepth 1 ! -name out -exec rm -rf {} + &&
            find "$crate" -mindepth 1 -maxdepth 1 ! -name out -exec cp -R {} "$name" \; &&
            find "$name" -mindepth 1 -maxdepth 1 ! -name out -exec chmod -R u+w {} + || stop "JALLUMERE_BUILD: '$name' cannot be made"
    done
}

# One run builds at a time. The lock is on the folder itself and ends with its holder.
take_lock() {
    local told=no
    if has flock; then exec 9<"$place"; fi
    until try_lock; do
        [ "$told" = yes ] || say "another run of ./jallumere builds in '$place'; waiting for it to end"
        told=yes
        sleep 0.5
    done
    [ "$told" = no ] || say "the other run has ended"
}

# Without flock the lock is a link that names its holder, a process and when it started; one whose holder is gone is void.
try_lock() {
    local holder link=$place/.jallumere-lock
    if has flock; then
        flock -n 9
        return
    fi
    holder=$(readlink "$link") && [ "${holder#* }" != "$(started_at "${holder% *}")" ] && rm -f "$link"
    ln -s "$$ $(started_at $$)" "$link" 2>/dev/null
}

started_at() { sed 's/.*) //' "/proc/$1/stat" 2>/dev/null | cut -d ' ' -f 20; }

release_lock() {
    exec 9<&-
    [ -z "${place:-}" ] || [ "$(readlink "$place/.jallumere-lock")" != "$$ $(started_at $$)" ] || rm -f "$place/.jallumere-lock"
}
