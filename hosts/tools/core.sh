# shellcheck shell=bash
# For ./jallumere: what rt proves and builds, how long it will take, and the gate.

# Has the core proved and built, if it is not. Before that the program is built over the C model: what the machine lacks
# shows now and not after minutes, and simulate has something to show. It is not optimised: that would take longer than it gains.
have_core() { # NAME WORDS...
    build "$1" model -O0 "$built/$1-model"
    first_sight=("$@")
    prove replica_c make_core "$archive"
}

# The core's archive: rt writes it as out/libreplica_c.a, and hosts link it under the core's name.
make_core() { make_of replica_c "$archive"; }

# Has rt prove a crate and all below it, and copies what it has built of the crate, unless that is made of the same already.
make_of() { # CRATE MADE
    local contents began=$SECONDS
    set +m # so that what is started here ends with this
    contents=$(proved_of "$1")
    if [ "$(made_with "$contents" "$2")" = "$(cat "$2.made-of" 2>/dev/null)" ]; then return; fi
    mkdir -p "${2%/*}" && rm -f "$2.made-of" && prove_below "$1" && began=$SECONDS && "build_$1" "$2.new" || return
    mv "$2.new" "$2" && made_with "$contents" "$2" >"$2.made-of" && echo "jallumere: $1 proved ($((SECONDS - began)) s)"
}

build_replica_c() { (cd "$place/crates/replica_c" && rt lib && cp out/libreplica_c.a "$1"); }

# All that a crate's proof stands on: the kit, what each crate needs, and their files.
proved_of() {
    local crate part parts=()
    for crate in $(crates_below "$1"); do
        for part in src specs proofs; do
            [ ! -d "$tree/crates/$crate/$part" ] || parts+=("crates/$crate/$part")
        done
    done
    rt version
    sed 's/#.*//' "$tree/crates.txt"
    digests_of "${parts[@]}"
}

# With what was made, in case that something else stands in its place.
made_with() { # CONTENTS MADE
    printf '%s\n' "$1" | "$digest"
    "$digest" <"$2"
} 2>/dev/null

# Has rt prove the crates below one, several at a time: first those that need none, then those that need these alone, and so on.
prove_below() { # CRATE
    local crate crates running=0 failed=no
    rm -f "$built/failed"
    while read -r -a crates; do
        for crate in "${crates[@]}"; do
            [ "$running" -lt "${RT_JOBS:-4}" ] || one_less
            prove_one "$crate" &
            running=$((running + 1))
        done
        while [ "$running" -gt 0 ]; do one_less; done
        [ "$failed" = no ] || { cat "$built/failed" && return 1; }
    done < <(ranks_below "$1")
}

one_less() {
    wait -n || failed=yes
    running=$((running - 1))
}

# Of a library that has not changed rt says nothing.
prove_one() {
    local said began=$SECONDS
    said=$(cd "$place/crates/$1" && rt lib 2>&1) || {
        printf '%s\njallumere: %s NOT PROVED\n' "$said" "$1" >>"$built/failed"
        return 1
    }
    if [ -z "$said" ]; then
        echo "jallumere: $1 proved (unchanged since it was last proved)"
    else
        printf '%s\njallumere: %s proved (%s s)\n' "$said" "$1" $((SECONDS - began))
    fi
}

# What simulate has to show before the core is proved: the same run on the C model.
show_model() {
    [ "${first_sight[0]:-}" = simulate ] || return 0
    say "the core is not proved yet. First the same run on the C model (hosts/model), of which nothing is proved:"
    ${emulator[@]+"${emulator[@]}"} "$built/simulate-model" "${first_sight[@]:1}" || return
    say "that was the C model. Now the core is proved, and then the same run is made on it"
}

# prove CRATE TASK MADE: runs a task that has rt prove the crate and makes the file MADE. Where it is done in a moment, since
# nothing has changed since the last time, nothing is told. Meanwhile the shell only waits: then it takes a signal at once.
prove() {
    local log=$built/$1.log made=$3 patience=5 began=$SECONDS status
    if [ ! -e "$made" ]; then
        start show_model
        finished || exit
        first_sight=() patience=0 began=$SECONDS
    fi
    note_other_kit
    count_lines "$1" >"$built/crates"
    : >"$log"
    start tell "$log" "$patience"
    start "$2" >"$log" 2>&1
    finished
    status=$?
    end_children
    [ ! -t 2 ] || printf '\r\033[K' >&2
    if [ "$status" -ne 0 ] || [ ! -e "$made" ]; then
        tail -n 20 "$log" >&2
        stop "$1 was not proved; all that rt wrote is in $log"
    fi
    [ $((SECONDS - began)) -ge "$patience" ] || return 0
    keep_times "$log" $((SECONDS - began))
    say "$1 and all crates below it are proved, in $((SECONDS - began)) s"
}

# Tells how far rt is, until it is ended; where nobody reads that, or the model's run, the whole script ends.
tell() { # LOG PATIENCE
    local began=$SECONDS told='' heard=''
    trap 'kill -s PIPE $$' PIPE
    sleep "$2"
    show_model || kill -s PIPE $$
    while tell_progress "$1" $((SECONDS - began)); do sleep 1; done
    # Where PIPE is ignored, a write has failed.
    kill -s TERM $$
}

note_other_kit() {
    local present
    present=$(rt version)
    [ "$present" = "$(cat "$tree/KIT")" ] || say "note: proved with '$(cat "$tree/KIT")' (file KIT), but this machine has '$present'"
}

# ---- how long it will take

# The times that came with the tree and, of more weight, those of the last run here.
times() { cat "$tree/hosts/tools/times.txt" "$built/times.txt" 2>/dev/null; }

# A line 'NAME LINES' for the crate and each that it needs.
count_lines() {
    (cd "$tree/crates" && find . \( -name '*.rt' -o -name '*.antt' \) -exec wc -l {} +) | awk '
        NR == FNR { wanted[$1]; next }
        { split($2, part, "/") }
        part[2] in wanted { lines[part[2]] += $1 }
        END { for (crate in lines) print crate, lines[crate] }' <(crates_below "$1") -
}

# The crate and all that it needs, each below those that it needs.
crates_below() { ranks_below "$1" | sed 's/ /\n/g' && echo "$1"; }

# All that a crate needs, a line for each rank: those of a line need only crates of the lines above it.
ranks_below() {
    awk -v wanted="$1" '
        function visit(name, parts, count, i, own) {
            if (name in rank || !(name in needs)) return
            count = split(needs[name], parts, " ")
            for (i = 1; i <= count; i++) {
                visit(parts[i])
                if (parts[i] in rank && rank[parts[i]] >= own) own = rank[parts[i]] + 1
            }
            rank[name] = own + 0
            if (name != wanted) line[own + 0] = line[own + 0] (line[own + 0] == "" ? "" : " ") name
        }
        { sub(/#.*/, ""); colon = index($0, ":") }
        colon { split(substr($0, 1, colon - 1), words, " "); needs[words[1]] = substr($0, colon + 1) }
        END { visit(wanted); for (i = 0; i in line; i++) print line[i] }' "$tree/crates.txt"
}

# On a terminal one line that changes every second; elsewhere a line when a crate is proved, but not at every second, or
# after a minute.
tell_progress() { # LOG GONE
    local line since
    since=$(($(date +%s) - $(stat -c %Y "$1")))
    line=$(awk -v gone="$2" -v since="$since" -f "$tree/hosts/tools/progress.awk" part=times <(times) part=crates "$built/crates" part=log "$1")
    if [ -t 2 ]; then
        printf '\r\033[Kjallumere: %s' "$line" >&2
    elif [ -z "$told" ] || [ "$2" -ge $((told + 60)) ] || { [ "${line%%,*}" != "$heard" ] && [ "$2" -ge $((told + 5)) ]; }; then
        heard=${line%%,*} told=$2
        say "$line"
    fi
}

# Adds the times of a run to those that there were. 'pace' is how many seconds passed for a hundred seconds of crates, since
# rt proves several at once; a run that proved little says nothing of it.
keep_times() { # LOG GONE
    local kept
    kept=$(awk -v gone="$2" '
        NR == FNR { if ($1 !~ /^#/) seconds[$1] = $2; next }
        /^(rt|jallumere): [A-Za-z0-9_]+ proved \([0-9]+ s\)$/ {
            seconds[$2] = substr($4, 2)
            all += seconds[$2]
        }
        END {
            if (all >= 60) seconds["pace"] = int(100 * gone / all + 0.5)
            for (name in seconds) print name, seconds[name]
        }' <(times) "$1" | LC_ALL=C sort)
    {
        echo "# Seconds that rt took for each crate, and 'pace': how many passed for a hundred of these, since rt proves several at once."
        echo "# ./jallumere goes by them to tell how long a proof will take. It writes them to target/hosts/times.txt after each proof;"
        echo "# hosts/tools/times.txt is a copy of that file, for a fresh clone."
        printf '%s\n' "$kept"
    } >"$built/times.txt"
}

# ---- the tasks that need no host program

# The gate's program over its traces.
replay() {
    local program loader=() home
    has_rt || exit 2
    if ! on_x86 && ! find_emulator; then stop "missing: the emulator qemu-x86_64: apt-get install qemu-user"; fi
    open_place
    program=$place/target/bin/replay
    first_sight=()
    prove replay make_replay "$program"
    if ! on_x86; then
        home=$(kit_home)/on/$(uname -m)/toolchain/lib
        [ -d "$home" ] || home=$(kit_home)/toolchain/lib
        loader=("${emulator[@]}" "$home/ld-linux-x86-64.so.2" --library-path "$home")
    fi
    release_lock
    cd "$tree/crates/replay/data" || exit 2
    exec ${loader[@]+"${loader[@]}"} "$program"
}

make_replay() { make_of replay "$program"; }

# rt also runs the program, without its traces, so that it fails; that it is proved and built is told by rt's stamp.
build_replay() { (cd "$place/crates/replay" && { rt run || [ -s out/replay.stamp ]; } && cp out/replay "$1"); }

# Where another folder is to be built in, the gate runs there over the copy of the crates. (rt takes the folder of .git for the top.)
gate() {
    has_rt || exit 2
    open_place
    if [ "$place" != "$tree" ]; then
        mkdir -p "$place/.git" && rm -rf "${place:?}/.ci" && cp -R "$tree/.ci" "$place/.ci" || stop "'$place/.ci' cannot be made"
        chmod -R u+w "$place/.ci"
    fi
    say "the gate proves all that no run of it on this machine has proved: the first takes long"
    start "$place/.ci/run"
    finished
    exit
}
