#!/usr/bin/env bash
# Tries ./jallumere in a copy of this tree, with a stand-in for rt that proves nothing and makes the core's archive of the C
# model, so that all takes a minute or two. What another kind of machine needs is tried with stand-ins for its commands.
# The last line is 'N passed, M failed'; the exit status is 1 if any failed. With words, only the tests named.
# shellcheck disable=SC2016
set -u
tree=$(cd "$(dirname "$0")/../.." && pwd -P)
room=$(mktemp -d)
trap 'chmod -R u+w "$room"; rm -rf "$room"' EXIT
passed=0 failed=0

# ---- the stand-ins

make_rt() {
    mkdir -p "$room/bin"
    cp "$(command -v sleep)" "$room/bin/rattle"
    cat >"$room/bin/rt" <<'END'
#!/usr/bin/env bash
# Proves the crate in whose folder it is by sleeping, if its files or those below have changed; says what rt says.
room=$(dirname "$(dirname "$0")")
[ "$1" != version ] || { cat "$room/tree/KIT"; exit; }
crate=${PWD##*/}
echo "rt $* $crate" >>"$room/calls"
[ "$1" != ci ] || { "$room/bin/rattle" "$(cat "$room/pause")"; cat "$room/gate"; exit; }
[ ! -e "$room/broken" ] || { echo "error: no proof is found"; exit 1; }
mkdir -p out
stamp=$(for below in $(sed -n "s/^$crate[^:]*://p" ../../crates.txt); do cat "../$below/out/stamp"; done | cat - src/*.rt | sha256sum)
if [ "$(cat out/stamp 2>/dev/null)" != "$stamp" ]; then
    "$room/bin/rattle" "$(cat "$room/pause")" || exit 2
    echo "$stamp" >out/stamp
    printf 'fn %s::%s: proved\nlogic=proved functions=1\n' "$crate" "$crate"
fi
case $crate in
replica_c) echo "logic=proved functions=1" && cp "$room/model.a" out/libreplica_c.a ;;
replay)
    printf '#!/bin/sh\nls traces.bin && echo "9098 steps, 0 differences"\n' >out/replay
    chmod +x out/replay && echo "$stamp" >out/replay.stamp && echo "rt: running out/replay" && out/replay
    ;;
esac
END
    chmod +x "$room/bin/rt"
    gcc -O0 -I "$tree/include" -I "$tree/hosts/common" -Djallumere_is_model=of_the_model -c -o "$room/model.o" "$tree/hosts/model/core.c"
    echo 'unsigned long jallumere_is_model(void) { return 0; }' | gcc -x c -c -o "$room/proved.o" - && ar rcs "$room/model.a" "$room/model.o" "$room/proved.o"
}

# Compilers and emulators. Without optimisation, for the time; each call is kept, and what is passed can be looked at.
make_tools() {
    local kit=$room/kit/on/aarch64/toolchain/bin
    mkdir -p "$room/bin" "$room/arm" "$room/kit/bin" "$kit"
    cat >"$room/bin/gcc" <<END
#!/usr/bin/env bash
case \$* in *-o*) echo "gcc \$*" >>"$room/calls" ;; esac
exec $(command -v gcc) "\${@/#-O3/-O0}"
END
    printf '#!/bin/sh\n[ "$1" != -m ] || { echo aarch64; exit; }\nexec %s "$@"\n' "$(command -v uname)" >"$room/arm/uname"
    printf '#!/bin/sh\nexec "%s/bin/gcc" "$@"\n' "$room" >"$room/arm/x86_64-linux-gnu-gcc"
    printf '#!/bin/sh\necho "qemu $*" >>"%s/calls"\nwhile [ "${1#*ld-linux}" != "$1" ]; do shift 3; done\nexec "$@"\n' "$room" >"$room/arm/qemu-x86_64"
    sed 's/echo "qemu/echo "kit-qemu/' "$room/arm/qemu-x86_64" >"$kit/qemu-x86_64"
    printf '#!/bin/sh\nexec "%s/bin/rt" "$@"\n' "$room" >"$room/kit/bin/rt"
    chmod +x "$room"/bin/* "$room"/arm/* "$room/kit/bin/rt" "$kit/qemu-x86_64"
}

# A folder with the commands that every machine has, and none of rt, compilers and emulators.
make_bare_commands() {
    local name
    mkdir -p "$room/bare"
    for name in bash sh env awk sed cat cut grep find sort head tail wc stat date dirname basename readlink mkdir mv cp rm ln chmod sleep \
        sha256sum cksum uname flock as ld; do
        ln -sf "$(type -P "$name")" "$room/bare/$name"
    done
}

fresh_tree() {
    chmod -R u+w "$room/tree" 2>/dev/null
    rm -rf "$room/tree" "$room/broken"
    mkdir -p "$room/tree/crates"
    cp -R "$tree/jallumere" "$tree/hosts" "$tree/include" "$tree/KIT" "$tree/.ci" "$room/tree"
    echo '# the crates
group:
places: group
replica: group places
replica_c staticlib: replica
replay: replica' >"$room/tree/crates.txt"
    for crate in group places replica replica_c replay; do
        mkdir -p "$room/tree/crates/$crate/src" "$room/tree/crates/$crate/data"
        echo "fn $crate() {}" >"$room/tree/crates/$crate/src/lib.rt"
    done
    : >"$room/tree/crates/replay/data/traces.bin"
    : >"$room/calls"
    echo 0.1 >"$room/pause"
    echo '3 passed, 0 failed' >"$room/gate"
    cd "$room" || exit 2
}

# ---- how a test is told

# Runs ./jallumere of the copy; leaves its output in out, its messages in said, its exit status in status.
jallumere() {
    PATH=${path:-$room/bin:$PATH} "$room/tree/jallumere" "$@" >"$room/out" 2>"$room/said"
    status=$?
}

check() { # WORDS COMMAND...
    local words=$1
    shift
    if "$@"; then
        passed=$((passed + 1))
    else
        failed=$((failed + 1))
        echo "FAILED: $words (status ${status:-none})"
        sed 's/^/    /' "$room/said" | tail -n 8
    fi
}

said() { grep -q -e "$1" "$room/said"; }
printed() { grep -q -e "$1" "$room/out"; }
calls_of() { grep -c "^$1 " "$room/calls"; }
called() { [ "$(calls_of "$1")" -gt 0 ]; }
first_call() { grep -n -e "$1" "$room/calls" | head -n 1 | cut -d: -f1; }
not() { ! "$@"; }
is_status() { [ "$status" -eq "$1" ]; }
nothing_built() { [ ! -e "$room/tree/target" ] && [ ! -s "$room/calls" ]; }
runs_printed() { [ "$(grep -c ' group.* of .* sites' "$room/out")" -eq "$1" ]; }
prover_runs() { grep -qsa "^$room/bin/rattle" /proc/[0-9]*/cmdline; }
no_prover_left() { ! prover_runs; }
within() { # SECONDS COMMAND...
    local turn most=$(($1 * 10))
    shift
    for ((turn = 0; turn < most; turn++)); do
        "$@" && return
        sleep 0.1
    done
    return 1
}

# ---- the tests

test_help() {
    fresh_tree
    for words in --help -h help --version 'simulate --help' 'inspect -h' 'compare --steps 5 --help' 'bench --help' 'replay --help' 'test -h'; do
        # shellcheck disable=SC2086
        jallumere $words
        check "'$words' answers" is_status 0
    done
    jallumere simulate --help
    check "simulate --help lists its options" printed '--page FILE'
    jallumere --version
    check "--version tells the version" printed '^jallumere [0-9]*\.[0-9]*\.[0-9]*$'
    check "--version tells the kit" printed "^kit: $(cat "$tree/KIT")"
    check "--version tells that there is no core" printed '^core: not built'
    check "nothing is built for help" nothing_built
}

refused() { # WORDS, and a part of the sentence
    # shellcheck disable=SC2086
    jallumere $1
    check "'$1' is refused" is_status 2
    check "'$1' is refused with a sentence" said "$2"
    check "nothing is built for '$1'" nothing_built
}

test_bad_words() {
    fresh_tree
    refused '' 'simulate'
    refused 'simulat' "no task 'simulat'"
    refused '--version now' 'takes no words'
    refused 'simulate --sead 1' "takes no '--sead'"
    refused 'simulate --seed' '--seed takes a N behind it'
    refused 'simulate --seed 18446744073709551616' 'out of range'
    refused 'simulate --seed 99999999999999999999999' 'out of range'
    refused 'simulate --seed -1' 'takes a number'
    refused 'simulate --sites 4' 'one of 3, 5, 7'
    refused 'simulate --capacity 15' 'from 16 to 4096'
    refused 'simulate --page nowhere/run.html' 'cannot be written'
    refused 'simulate --states nowhere' 'is no folder'
    refused 'inspect' 'which state, or which message'
    refused 'inspect nowhere.state' 'cannot be read'
    refused 'inspect calls --sites 3' 'go together'
    refused 'inspect calls --sites 3 --groups 1 --sites 3' 'go together'
    refused 'inspect calls calls' 'one state at a time'
    refused 'inspect --message' '--message takes a FILE behind it'
    refused 'inspect --message nowhere.message' 'cannot be read'
    refused 'inspect --message calls --groups 1' 'go together'
    refused 'inspect --message calls --sites 3 --groups 1 --capacity 16' 'go together'
    refused 'inspect --message calls calls' 'one state at a time'
    refused 'inspect calls --message calls' 'one at a time'
    refused 'inspect --order new' 'which state, or which message'
    refused 'inspect calls --order' '--order takes a FILE behind it'
    refused 'inspect calls --order calls' 'is there already'
    refused 'inspect calls --order nowhere/new' 'cannot be written'
    refused 'inspect --message calls --order new' 'for a state alone'
    refused 'inspect --state calls --message calls --order new' 'for a state alone'
    refused 'inspect calls --state calls' 'one at a time'
    refused 'inspect --state calls --message calls calls' 'one state at a time'
    refused 'inspect --state' '--state takes a FILE behind it'
    refused 'inspect --state nowhere.state --message calls' 'cannot be read'
    refused 'inspect --state calls --message calls --sites 3 --groups 1' 'go together'
    refused 'compare --traces nowhere.bin' 'cannot be read'
    refused 'compare 5' "takes no '5'"
    refused 'bench --svg' '--svg takes a FILE behind it'
    refused 'bench --svg --csv' '--svg takes a FILE behind it'
    refused 'bench --svg a.svg --markdown' 'draws'
    refused 'replay again' "takes no 'again'"
    refused 'test all' "takes no 'all'"
}

test_first_command() {
    fresh_tree
    echo 5 >"$room/pause" # the script tells at most every five seconds
    jallumere simulate --steps 30 --seed 18446744073709551615
    echo 0.1 >"$room/pause"
    check "the first command ends well" is_status 0
    check "it runs twice" runs_printed 2
    check "it says that the first is the model" said 'First the same run on the C model'
    check "it tells how far the proof is" said 'crate [0-9] of 4 proved'
    check "it names a crate" said 'crate [123] of 4 proved ([a-z]*), [0-9]* s gone'
    check "the model is built before anything is proved" [ "$(first_call simulate-model)" -lt "$(first_call '^rt ')" ]
    check "no program is linked with libm" not grep -q -e -lm "$room/calls"
    check "the times are kept" grep -q '^places [1-9][0-9]*$' "$room/tree/target/hosts/times.txt"
    jallumere --version
    check "--version tells that the core is built" printed '^core: built'
    test_nothing_changed
    test_changes
}

test_nothing_changed() {
    find "$room/tree" -type f -exec touch -d tomorrow {} +
    : >"$room/calls"
    jallumere simulate --steps 30
    check "a second run ends well" is_status 0
    check "with nothing changed it runs once" runs_printed 1
    check "with nothing changed nothing is compiled, however new the files are" not called gcc
    check "with nothing changed nothing is proved" not called rt
    check "with nothing changed nothing is said" [ ! -s "$room/said" ]
}

test_changes() {
    echo '// more' >>"$room/tree/crates/places/src/lib.rt"
    touch -d yesterday "$room/tree/crates/places/src/lib.rt"
    echo 4 >"$room/pause" # the script shows the model after five seconds
    jallumere simulate --steps 30
    echo 0.1 >"$room/pause"
    check "a changed crate is proved again, however old the file is" grep -q '^jallumere: places proved ([0-9]* s)' "$room/tree/target/hosts/replica_c.log"
    check "a crate below a changed one is not" grep -q '^jallumere: group proved (unchanged' "$room/tree/target/hosts/replica_c.log"
    check "with a changed crate the model is shown meanwhile" runs_printed 2
    check "the archive is made again" grep -q '^rt lib replica_c' "$room/calls"
    : >"$room/calls"
    echo '/* more */' >>"$room/tree/hosts/simulate/simulate.c"
    touch -d yesterday "$room/tree/hosts/simulate/simulate.c"
    jallumere simulate --steps 30
    check "a changed host program is compiled again" called gcc
    check "a changed host program needs no proof" not called rt
    echo damaged >"$room/tree/target/staticlib/libreplica.a"
    jallumere simulate --steps 30
    check "another archive in its place is noticed" is_status 0
}

test_not_proved() {
    fresh_tree
    touch "$room/broken"
    jallumere simulate --steps 30
    check "what is not proved does not run" is_status 2
    check "what is not proved is shown" said 'group NOT PROVED'
    check "what rt says of it is shown" said 'error: no proof is found'
    check "what is above it is not tried" [ "$(calls_of rt)" -eq 1 ]
    rm "$room/broken"
    echo 'not C' >>"$room/tree/hosts/model/core.c"
    : >"$room/calls"
    jallumere simulate --steps 30
    check "a program that cannot be compiled is told" said 'was not built'
    check "a program that cannot be compiled is told before anything is proved" not called rt
}

test_other_core() {
    fresh_tree
    JALLUMERE_CORE=model jallumere simulate --steps 30
    check "the model can be the core" is_status 0
    check "then it is said" said 'nothing tells that it is proved'
    check "then nothing is proved" not called rt
    JALLUMERE_CORE=$room/model.a jallumere simulate --steps 30
    check "another archive can be the core" runs_printed 1
    JALLUMERE_CORE=nowhere.a jallumere simulate --steps 30
    check "another archive must be there" said "'nowhere.a', which cannot be read"
}

# A core that is the model but for its followers, who take half of the log that a view starts with.
make_forgetful_core() {
    local model=$room/tree/hosts/model
    sed 's/become_normal(now, now->told.entries, now->told.count)/become_normal(now, now->told.entries, now->told.count \/ 2)/' "$model/model.c" >"$model/forgets.c"
    sed 's/"model.c"/"forgets.c"/' "$model/core.c" >"$model/forgetful.c"
    gcc -O0 -c -o forgetful.o "$model/forgetful.c" && ar rcs forgetful.a forgetful.o
}

test_views() {
    local failure='the entry committed at position [0-9]* in view 0 does not stand there in a log that a site had in view 1'
    fresh_tree
    JALLUMERE_CORE=model jallumere simulate --quiet
    check "a run goes through three views after the first" printed '; 3 views after the first; '
    JALLUMERE_CORE=model jallumere simulate --quiet --capacity 256 --steps 6000
    check "a longer run goes through many" printed '; 1[0-9] views after the first; [0-9]\{3\} entries committed$'
    check "what is committed stays through them" printed '^Every promise held: '
    make_forgetful_core
    JALLUMERE_CORE=forgetful.a jallumere simulate --quiet --page run.html
    check "an entry that a later view has lost ends the run" is_status 1
    check "an entry that a later view has lost is told" said "A PROMISE FAILED at step [0-9]*, [0-9]* ms, site g0.r[0-9]: $failure\$"
    check "an entry that a later view has lost is shown" grep -q "\"failed\":\"site g0.r[0-9]: $failure\"" run.html
}

begins_with() { head -n 1 "$room/out" | grep -qxF -e "$1"; }

inspected() { # WORDS STATUS FIRST-LINE A-LINE SIZES: what inspect says of the file 'message'
    # shellcheck disable=SC2086
    JALLUMERE_CORE=model jallumere inspect --message message $5
    check "$1: the exit status" is_status "$2"
    check "$1: the verdict comes first" begins_with "$3"
    check "$1: the report" printed "$4"
    check "$1: core and report agree" not printed DISAGREEMENT
}

make_tick() { printf '\27\0\2\377\377\0\0\0\0\0\0\0\0\0\0\0\1\0\0\0\5\0\0\0\0\0\0\0\0\0\0\0' >tick; }

# A core that is the model but for its reader, which finds everything wrong at byte 3.
make_other_core() {
    gcc -O0 -I "$tree/include" -I "$tree/hosts/common" -Djallumere_read=of_the_model -c -o one.o "$tree/hosts/model/core.c"
    echo 'unsigned long jallumere_read(void) { return 2 + 256 * 3; }' | gcc -x c -c -o two.o - && ar rcs other.a one.o two.o
}

# A tick of 32 bytes, a replica sync with two entries of group 0, and what is wrong with them.
test_message() {
    local good='The message is well formed.' wrong='The message is NOT well formed: it is wrong at byte'
    local sizes='--sites 3 --groups 1'
    fresh_tree
    make_tick
    printf '\4\0\6\0\0\0\0\0\0\0\0\0\1\0\0\0\0\0\0\0\0\0\0\0\2\0\0\0' >log
    printf '\11\0\0\0\0\0\0\0\115\0\0\0\0\0\0\0\1\0\0\0\11\0\1\0' >>log
    printf '\10\0\0\0\0\0\0\0\115\0\0\0\0\0\0\0\2\0\0\0\11\0\1\0' >>log
    cp tick message
    inspected "a tick" 0 "$good" '^ *20  time  *5$' "$sizes"
    check "a tick has nothing marked" not printed WRONG
    inspected "a tick without sizes" 0 "$good" '3 sites in a group, 1 group (not given: the first sizes in which it is well formed)' ''
    (head -c 8 tick && printf '\1' && tail -c 23 tick) >message
    inspected "a wrong field" 1 "$wrong 8." '^ *^ WRONG at byte 8: a tick has gView 0$' "$sizes"
    head -c 27 tick >message
    inspected "a cut message" 1 "$wrong 27." 'WRONG at byte 27: the message ends here, after 7 of the 8 bytes of the time' "$sizes"
    check "a cut message is shown as far as it goes" eval '[ "$(grep -c "^ *[0-9][0-9]*  " "$room/out")" -eq 10 ]'
    head -c 16 tick >message
    inspected "a message cut between fields" 1 "$wrong 16." "WRONG at byte 16: the message ends here, before the numbers' count" "$sizes"
    cat tick tick >message
    inspected "bytes behind" 1 "$wrong 32." 'WRONG at byte 32: .* 32 bytes follow, which begin with another message' "$sizes"
    cp log message
    inspected "a log that stops being good" 1 "$wrong 52." 'WRONG at byte 52: timestamp 8 falls below 9 of entry 1' "$sizes"
    (head -c 52 log && printf '\11' && tail -c 23 log) >message
    inspected "equal timestamps" 0 "$good" '^ *52  entry 2  *at 9, transaction 9.2, groups 0, ' "$sizes"
    (head -c 52 log && printf '\11' && tail -c 23 log | head -c 19 && printf '\10' && tail -c 3 log) >message
    inspected "equal timestamps against the order" 1 "$wrong 52." 'WRONG at byte 52: transaction 8.2 is not after 9.1 of entry 1, which has the same' "$sizes"
    (head -c 52 log && printf '\12' && tail -c 23 log) >message
    inspected "a good log" 0 "$good" '^ *52  entry 2  *at 10, transaction 9.2, groups 0, ' "$sizes"
    (head -c 52 log && printf '\12' && tail -c 23 log | head -c 15 && printf '\1' && tail -c 7 log) >message
    inspected "a transaction twice" 1 "$wrong 52." 'WRONG at byte 52: transaction 9.1 stands in entry 1 already' "$sizes"
    (head -c 44 log && printf '\0' && tail -c 31 log) >message
    inspected "a field of an entry" 1 "$wrong 44." 'WRONG at byte 44: request 0 is out of range' "$sizes"
    : >message
    inspected "an empty file" 1 "$wrong 0." 'WRONG at byte 0: the message has no bytes' ''
    echo 'some text that is no message' >message
    inspected "a text" 1 "$wrong 0." 'WRONG at byte 0: there is no kind 115' ''
    JALLUMERE_CORE=model jallumere inspect --message - <tick
    check "a message comes from the standard input" is_status 0
    make_other_core
    JALLUMERE_CORE=other.a jallumere inspect --message tick
    check "the verdict is the core's" is_status 1
    check "a core that says otherwise is told" printed '^DISAGREEMENT: this report finds nothing wrong.$'
}

# A follower's state with a log, or early (TABLE), of two entries, requests REQUEST and REQUEST of coordinator 9, both at 9.
make_state() { # TABLE REQUEST REQUEST
    local request before=76
    [ "$1" = log ] || before=$((76 + 388))
    printf '\0\1\1'
    head -c "$before" /dev/zero
    printf '\2\0\0\0'
    for request in "${@:2}"; do
        printf '\11\0\0\0\0\0\0\0\115\0\0\0\0\0\0\0'
        printf '%b\0\0\0\11\0\1\0' "\\0$request"
    done
    head -c $((3412 - before)) /dev/zero
}

inspect_state() { JALLUMERE_CORE=${core:-model} jallumere inspect "$@" --sites 3 --groups 1 --capacity 16; }

test_state() {
    fresh_tree
    make_state log 1 2 >state
    inspect_state state
    check "a state whose log rises by request is good" is_status 0
    check "a good state is told first" begins_with 'The state is good.'
    check "the digest at the sync point, of no entries" printed '^sync point  *0, digest of the log so far 0xcbf29ce484222325$'
    test_points
    test_cut_state
    make_state log 2 1 >state
    inspect_state state
    check "a state whose log has equal timestamps against the order is not good" is_status 1
    check "and it is told why and where" printed '^  - a log rises strictly by timestamp, coordinator, request (byte 107, log entry 2: transaction 9.1 at 9, mask 0x1)$'
    check "and nothing else is wrong with it" [ "$(grep -c '^  - ' "$room/out")" -eq 1 ]
    check "and its order does not mend it" not printed 'jallumere_order'
    inspect_state state --order ordered
    check "so it is not written in order" is_status 1
    check "and that is told" printed "^'ordered' is not written: "
    check "and there is no file" [ ! -e ordered ]
    test_early
}

test_early() {
    local core wrong='^  - early rises strictly by timestamp, coordinator, request (byte 495, early entry 2: transaction 9.1 at 9, mask 0x1)$'
    make_state early 1 2 >good
    inspect_state good --order same
    check "a state whose early rises by request is good" begins_with 'The state is good.'
    check "a good state stays as it is when it is ordered" cmp -s good same
    make_state early 2 1 >state
    inspect_state state
    check "a state from before 2.1 is not good" is_status 1
    check "and it is told which entry stands against the order" printed "$wrong"
    check "and nothing else is wrong with early" [ "$(grep -c '^  - ' "$room/out")" -eq 1 ]
    check "and what mends it is told before the report" [ "$(sed -n '/^$/q; /^jallumere_order mends it, and --order FILE writes it in order.$/p' "$room/out" | grep -c .)" -eq 1 ]
    check "core and model agree on it" not printed DISAGREEMENT
    JALLUMERE_CORE=model jallumere inspect state
    check "its shape is found without the sizes" printed '^shape  *3 sites in a group, 1 group, capacity 16, '
    inspect_state state --order ordered
    check "it is ordered into another file" is_status 0
    check "and that is told" printed "^'ordered' has the state with its early entries in order; it is good.$"
    check "and no other byte is changed" cmp -s good ordered
    check "and the first file stays" eval 'make_state early 2 1 | cmp -s - state'
    inspect_state state --order ordered
    check "a state is not written over" is_status 2
    check "and that is told" said "'ordered' is there already"
    gcc -O0 -I "$tree/include" -I "$tree/hosts/common" -Djallumere_order=of_the_model -c -o one.o "$tree/hosts/model/core.c"
    echo 'unsigned long jallumere_order(void) { return 1; }' | gcc -x c -c -o two.o - && ar rcs other.a one.o two.o
    core=other.a inspect_state state
    check "what mends a state is the core's to say" not printed 'jallumere_order mends it'
    check "a core that orders otherwise is told" printed '^DISAGREEMENT: the core puts the state in order with answer 1, the model with 0, or otherwise.$'
}

# The same state, synced up to entry 2 and committed up to 1.
test_points() {
    (head -c 24 state && printf '\2\0\0\0\0\0\0\0\1' && tail -c +34 state) >points
    inspect_state points
    check "a state with points is good" is_status 0
    check "the digests at the two points are two" [ "$(sed -n 's/.* point .*digest of the log so far \(0x[0-9a-f]*\)$/\1/p' "$room/out" | sort -u | grep -c .)" -eq 2 ]
}

# A file that ends in the log's second entry, one with bytes behind, and one without any.
test_cut_state() {
    head -c 120 state >cut.state
    inspect_state cut.state
    check "a cut state is not good" is_status 1
    check "a cut state is told first" begins_with 'The state is NOT good: the file has 120 of its 3467 bytes, and ends in: log entry 2.'
    check "a cut state is shown as far as it goes" printed '^ *1  at 9  *transaction 9.1 '
    check "and no further" not printed '^ *2  at '
    check "its order is no matter" not printed 'in order'
    check "its end is told" printed '^the file ends  here, at byte 120, which would be in: log entry 2$'
    JALLUMERE_CORE=model jallumere inspect cut.state
    check "a cut state without sizes is shown in the nearest shape" printed '^shape  *3 sites in a group, 1 group, capacity 16, 3467 bytes$'
    (cat state && echo more) >longer
    inspect_state longer
    check "bytes behind a state are told" begins_with 'The state is NOT good: the file has 5 bytes behind its 3467. What fails of the rules within these:'
    check "what is before them is shown to its end" printed '^behind it  *5 bytes that are no part of it$'
    inspect_state longer --order ordered
    check "a file that is no whole state is not written in order" is_status 1
    check "and there is no file of it" [ ! -e ordered ]
    : >cut.state
    JALLUMERE_CORE=model jallumere inspect cut.state
    check "an empty file is no state" is_status 1
}

against() { # WORDS STATUS FIRST-LINE A-LINE: what inspect says of the file 'message' at the file 'state'
    inspect_state --state state --message message
    check "$1: the exit status" is_status "$2"
    check "$1: the answer comes first" begins_with "$3"
    check "$1: the rule" printed "$4"
    check "$1: core and report agree" not printed DISAGREEMENT
}

# A message to replica 1 of group 0, of gView 0: kind, sender's replica, number.
make_told() { printf '%b\0\2\0%b\0\0\0\0\0\0\0\1\0\0\0\0\0\0\0\1\0\0\0%b\0\0\0\0\0\0\0\0\0\0\0' "\\0$1" "\\0$2" "\\0$3"; }

# A follower with two entries, none of them synced, and the messages that it refuses and takes.
test_against() {
    local refuses='A step of this site refuses the message with'
    fresh_tree
    make_tick
    make_state log 1 2 >state
    cp tick message
    against "a tick" 0 'A step of this site takes the message: 0, done.' '^  - clock: 0 before, 5 after$'
    check "what it sends is told" printed '^      a sync status of 36 bytes to group 0, replicas 0$'
    (head -c 2 tick && printf '\1' && tail -c 29 tick) >message
    against "a tick for another site" 1 "$refuses 3, not addressed here." '^  - it is for group 0, replicas 0; this site is group 0, replica 1$'
    (make_told 13 0 1 | head -c 8 && printf '\3' && make_told 13 0 1 | tail -c +10) >message
    against "a commit of another view" 1 "$refuses 4, wrong view." "^  - a commit is taken in the site's own view alone: this one is of gView 3, and the site is in 0\$"
    (printf '\11' && make_told 13 0 1 | head -c 20 | tail -c +2 && printf '\0\0\0\0\0\0\0\0') >message
    against "a start of a view that has started" 1 "$refuses 5, wrong status." "^  - a start view of the site's own view is taken only in status 2, view change; the site is in 1, normal\$"
    make_told 12 0 1 >message
    against "a sync status for the leader" 1 "$refuses 6, wrong role." '^  - a sync status is for the leader of group 0, by its gVec replica 0; this site is replica 1$'
    make_told 13 2 1 >message
    against "a commit not of the leader" 1 "$refuses 6, wrong role." '^  - a commit comes from the leader of group 0, by its gVec replica 0; this one is from 2$'
    make_told 13 0 1 >message
    against "a commit beyond the sync point" 1 "$refuses 7, nothing to do now." "^  - its commit point 1 lies beyond the site's sync point 0\$"
    head -c 27 tick >message
    against "a cut tick" 1 "$refuses 2, malformed at byte 27." '^  - the message ends here, after 7 of the 8 bytes of the time$'
    make_state log 2 1 >state
    cp tick message
    against "a state that is not good" 1 'A step of this site refuses the message, and every other, with 1, wrong size or state.' '^  - a log rises strictly '
    make_state early 2 1 >state
    against "a state from before 2.1" 1 'A step of this site refuses the message, and every other, with 1, wrong size or state.' '^jallumere_order mends it, '
}

# A tick as it is and one byte short, each with what is expected of the reader; and a tick that is cut, as a step of a site.
test_traces() {
    fresh_tree
    make_tick
    (printf '\1\3\1\20\0\0\1\2\0\0\0\0\37\0\0\0' && head -c 31 tick && printf '\2\37\0\0\0\0\0\0\0\45\43\42\204\344\234\362\313') >step
    printf '\141\326\217\176\125\321\267\10' >>step # the digest of a fresh state
    JALLUMERE_CORE=model jallumere compare --traces step
    check "a recorded step is compared" printed '^1 starts, 1 recorded steps, 0 recorded messages, 0 differences$'
    (head -c 48 step && printf '\36' && tail -c 23 step) >others
    JALLUMERE_CORE=model jallumere compare --traces others
    check "another offset of a step is told" printed 'expected answer 2, offset 30 and 0 bytes to send, given 2, 31 and 0, or other bytes$'
    printf '\3' >others
    JALLUMERE_CORE=model jallumere compare --traces others
    check "a call that the core has not is refused" said 'has a call of recover, which this core does not know$'
    check "a call that the core has not is bad usage" is_status 2
    (printf '\5\3\1\40\0\0\0' && cat tick && printf '\0\0\0\0\0\5\3\1\37\0\0\0' && head -c 31 tick && printf '\2\37\0\0\0') >messages
    JALLUMERE_CORE=model jallumere compare --traces messages
    check "recorded messages are compared" is_status 0
    check "recorded messages are counted" printed ' 2 recorded messages, 0 differences$'
    (head -c 83 messages && printf '\36\0\0\0') >others
    JALLUMERE_CORE=model jallumere compare --traces others
    check "another offset is a difference" is_status 1
    check "another offset is told" printed 'expected answer 2 and offset 30, given 2 and 31$'
    make_other_core
    JALLUMERE_CORE=other.a jallumere compare --traces messages
    check "a core with another offset is told" printed '^DIFFERENCE in read: the core answers 770 (2 + 256 \* 3), the model 0 '
    check "a core with another offset ends the comparison" is_status 1
}

test_missing() {
    local path=$room/bare
    fresh_tree
    jallumere simulate
    check "without anything: refused" is_status 2
    check "without anything rt is named first" eval 'head -n 1 "$room/said" | grep -q "missing: the command .rt."'
    check "without gcc the packages are named" said '^    apt-get install gcc libc6-dev$'
    jallumere replay
    check "replay names rt" said "missing: the command 'rt'"
    jallumere test
    check "test names rt" said "missing: the command 'rt'"
    path=$room/arm-bare
    mkdir -p "$path"
    cp -P "$room"/bare/* "$path"
    rm "$path/uname"
    cp "$room/arm/uname" "$path"
    jallumere simulate
    check "on Arm rt is named first" eval 'head -n 1 "$room/said" | grep -q "missing: the command .rt."'
    check "on Arm all packages are named in one line" said '^    apt-get install gcc-x86-64-linux-gnu libc6-dev-amd64-cross qemu-user$'
    check "nothing is built where something is missing" nothing_built
    cp "$room/arm/x86_64-linux-gnu-gcc" "$path"
    path=$room/kit/bin:$path
    jallumere simulate --steps 30
    check "on Arm the kit's emulator is found" grep -q '^kit-qemu .*target/hosts/simulate --steps 30' "$room/calls"
    rm -r "$room/kit/on"
    jallumere simulate
    check "on Arm the emulator alone is named where it alone is missing" said '^    apt-get install qemu-user$'
    check "then rt is not named" not said "command 'rt'"
}

test_arm() {
    local path=$room/arm:$room/bin:$PATH
    fresh_tree
    jallumere simulate --steps 30
    check "on Arm the first command ends well" is_status 0
    check "on Arm the model and the core are run" runs_printed 2
    check "on Arm programs are linked statically" grep -q '^gcc .* -static .*simulate-model' "$room/calls"
    check "on Arm programs are linked without libm" not grep -q -e -lm "$room/calls"
    check "on Arm programs run by the emulator" grep -q '^qemu .*target/hosts/simulate --steps 30' "$room/calls"
    jallumere replay
    check "on Arm replay runs by the emulator and prints its count" printed '9098 steps, 0 differences'
    jallumere replay
    check "on Arm replay runs a second time" printed '9098 steps, 0 differences'
    fresh_tree
    printf '#!/bin/sh\ncase $* in *print-file-name*) echo libc.a; exit ;; esac\nexit 1\n' >"$room/arm/x86_64-linux-gnu-gcc"
    jallumere simulate
    check "on Arm a missing C library is named" said '^    apt-get install libc6-dev-amd64-cross$'
    printf '#!/bin/sh\ncase $* in *print-file-name*) echo /libc.a; exit ;; esac\necho ld: cannot find crt1.o\nexit 1\n' >"$room/arm/x86_64-linux-gnu-gcc"
    jallumere simulate
    check "on Arm a wrong compiler is told by what it says" said 'cannot build the smallest program: ld: cannot find crt1.o'
    check "a wrong compiler is told before anything is proved" not called rt
    printf '#!/bin/sh\nexec "%s/bin/gcc" "$@"\n' "$room" >"$room/arm/x86_64-linux-gnu-gcc"
    mv "$room/arm/qemu-x86_64" "$room/arm/qemu"
    printf '#!/bin/sh\necho not for this machine\nexit 1\n' >"$room/arm/qemu-x86_64"
    chmod +x "$room/arm/qemu-x86_64"
    jallumere simulate
    check "on Arm a wrong emulator is told by what it says" said 'does not run here by qemu-x86_64: not for this machine'
    mv "$room/arm/qemu" "$room/arm/qemu-x86_64"
}

test_lock() { # with flock, or without it
    local path=$room/bin:$PATH first
    fresh_tree
    if [ "$1" = without ]; then
        path=$room/bin:$room/bare
        rm "$room/bare/flock"
        ln -s '999999 1' "$room/tree/.jallumere-lock"
    fi
    echo 1 >"$room/pause"
    PATH=$path "$room/tree/jallumere" simulate --steps 30 >"$room/first.out" 2>"$room/first.said" &
    first=$!
    check "$1 flock: a first run gets the lock" within 30 prover_runs
    jallumere simulate --steps 30
    check "$1 flock: a second run ends well" is_status 0
    check "$1 flock: a second run says that it waits" said 'another run of ./jallumere builds in .*; waiting'
    check "$1 flock: a second run goes on" runs_printed 1
    check "$1 flock: one of two runs proves" eval '[ "$(grep -c "^rt lib replica_c" "$room/calls")" -eq 1 ]'
    wait "$first"
    status=$?
    check "$1 flock: the first run ends well" is_status 0
    check "$1 flock: no lock is left" [ ! -L "$room/tree/.jallumere-lock" ]
    ln -sf "$(type -P flock)" "$room/bare/flock"
}

test_signals() {
    local signal run number
    for signal in TERM INT HUP; do
        fresh_tree
        echo 60 >"$room/pause"
        # Job control, since the shell has INT ignored in what it starts without.
        set -m
        PATH=$room/bin:$PATH "$room/tree/jallumere" simulate --steps 30 >"$room/out" 2>"$room/said" &
        run=$!
        set +m
        check "$signal: a prover runs" within 30 prover_runs
        kill -s "$signal" "$run"
        wait "$run" 2>/dev/null
        status=$?
        number=$(kill -l "$signal")
        check "$signal ends the script by it" is_status $((128 + number))
        check "$signal ends the provers" within 5 no_prover_left
        echo 0.1 >"$room/pause"
        jallumere simulate --steps 30
        check "after $signal the next run ends well" is_status 0
    done
}

test_closed_pipe() {
    fresh_tree
    echo 60 >"$room/pause"
    PATH=$room/bin:$PATH "$room/tree/jallumere" simulate --steps 30 2>&1 >/dev/null | head -n 2 >"$room/said"
    check "nobody reads: the provers end" within 5 no_prover_left
    fresh_tree
    # the run is shorter than a pipe holds, so the reader is gone before it begins
    PATH=$room/bin:$PATH "$room/tree/jallumere" simulate --steps 2000 2>"$room/said" | true
    status=${PIPESTATUS[0]}
    check "nobody reads the model's run: ends by PIPE" is_status 141
    check "nobody reads the model's run: nothing is proved" not called rt
    fresh_tree
    echo 60 >"$room/pause"
    (trap '' PIPE && PATH=$room/bin:$PATH exec "$room/tree/jallumere" simulate --steps 30 2>&1 >/dev/null) | head -n 2 >"$room/said"
    check "nobody reads, and the signal is ignored: the provers end" within 70 no_prover_left
}

test_read_only() {
    local path=$room/bin:$PATH as=() before
    fresh_tree
    rm -rf "$room/elsewhere"
    mkdir "$room/elsewhere"
    if [ "$(id -u)" -eq 0 ]; then # root writes anywhere
        as=(setpriv --reuid=65534 --regid=65534 --clear-groups)
        chmod 755 "$room"
        chmod 777 "$room/elsewhere" "$room/calls"
    fi
    chmod -R a-w "$room/tree"
    before=$(find "$room/tree" | sort)
    (cd / && PATH=$path "${as[@]}" "$room/tree/jallumere" simulate --steps 30) >"$room/out" 2>"$room/said"
    status=$?
    check "a tree that cannot be written is told" said 'cannot be written to; JALLUMERE_BUILD=DIR'
    (cd "$room" && PATH=$path JALLUMERE_BUILD=elsewhere "${as[@]}" "$room/tree/jallumere" simulate --steps 30 --page elsewhere/run.html) >"$room/out" 2>"$room/said"
    status=$?
    check "a tree that cannot be written is built elsewhere" is_status 0
    check "elsewhere the core runs too" runs_printed 2
    check "elsewhere the core is built" [ -s "$room/elsewhere/target/staticlib/libreplica.a" ]
    check "a path is meant from where the command was given" [ -s "$room/elsewhere/run.html" ]
    check "nothing is written to the tree" [ "$before" = "$(find "$room/tree" | sort)" ]
    (cd "$room" && PATH=$path JALLUMERE_BUILD=elsewhere "${as[@]}" "$room/tree/jallumere" test) >"$room/out" 2>"$room/said"
    status=$?
    check "the gate runs elsewhere" printed '3 passed, 0 failed'
    chmod -R u+w "$room/tree"
    mkdir -p "$room/elsewhere/else/crates"
    JALLUMERE_BUILD=$room/elsewhere/else jallumere simulate
    check "a folder with crates of its own is not built in" said 'is there and is no copy'
}

# A stand-in that measures nothing: it prints the figures of two steps, and fails with --turns 3.
test_bench() {
    fresh_tree
    rm "$room"/tree/hosts/common/*.c
    cat >"$room/tree/hosts/bench/bench.c" <<'END'
#include <stdio.h>
#include <string.h>
int main(int count, char **words)
{
    static const char *const logs[] = {"empty", "1/16", "1/4", "half", "full"};
    printf("kind,step,n,s,c,log,answer,core_ns,model_ns,ratio,keys\n");
    printf("23,\"tick\",3,1,16,full,0,2476.000,1500.000,1.651,1 hash\n");
    for (int i = 0; i < 30; i++)
        printf("%s,3,1,%d,%s,%s,%d.000,1000.000,1.234,plain\n", i < 15 ? "23,\"tick\"" : "11,\"4: an older view\"",
               i / 5 % 3 == 0 ? 16 : i / 5 % 3 == 1 ? 256 : 4096, logs[i % 5], i < 15 ? "0" : "4", 1234 + i % 5);
    return count > 2 && strcmp(words[2], "3") == 0;
}
END
    jallumere bench --svg speed.svg
    check "bench draws its figures" grep -q '>23 tick</text>' speed.svg
    check "bench draws what is done alone" [ "$(grep -c 'class="name"' speed.svg)" -eq 1 ]
    check "bench tells of the drawing" said "'speed.svg' has the drawing"
    printf 'above\n<!-- figures -->\nbefore\n<!-- figures -->\nbelow\n' >page.md
    cp page.md unchanged.md
    echo old >speed.svg
    jallumere bench --svg speed.svg --into page.md --turns 3
    check "a bench that fails gives its status" is_status 1
    check "a bench that fails leaves the drawing" grep -q old speed.svg
    check "a bench that fails leaves the page" cmp -s page.md unchanged.md
    jallumere bench
    check "bench prints its table" printed '^|   23 | tick                    |              1,234 |     1,000 |  1.23     |'
    check "bench prints what chosen keys cost" printed '^|   23 | tick                    |    16 | 1 hash   |            1,238 |      2,476 |   2.00 |            1,000 |      1,500 |   1.50 |$'
    check "bench prints a table for each shape and capacity" [ "$(grep -c '^### n = 3, S = 1, C = ' "$room/out")" -eq 3 ]
    check "bench runs no model first" not said 'First the same run'
    jallumere bench --csv
    check "bench prints its figures" printed '^23,"tick",3,1,16,empty,0,1234.000,1000.000,1.234,plain$'
    jallumere bench --markdown
    check "bench prints what it was measured on" printed '^Measured on an* .*; model and bench compiled by gcc [0-9.]* at `-O3`; the whole run took [0-9]* s\.$'
    check "bench prints its figures in short" printed '^|   23 | tick                    | 1.23 | 1.23 | 1.23 |$'
    jallumere bench --into page.md
    check "a page is filled" [ "$(grep -c '^### ' page.md)" -eq 6 ]
    check "what was between the marks of a page is gone" not grep -q before page.md
    check "what is around the marks of a page stays" [ "$(sed -n '1p;2p;$p' page.md | tr '\n' ' ')" = 'above <!-- figures --> below ' ]
    jallumere bench --into unchanged.md --markdown
    check "a page is filled with what is printed" [ "$(grep -c '^|' unchanged.md)" -eq "$(grep -c '^|' "$room/out")" ]
    path=$room/arm:$room/bin:$PATH jallumere bench
    check "under an emulator bench gives ratios" grep -q '^qemu .*bench --ratios' "$room/calls"
    fresh_tree
    jallumere bench --into calls
    check "a page without marks is told" said "has no two lines '<!-- figures -->'"
    check "nothing is built for a page without marks" nothing_built
}

test_replay_and_gate() {
    fresh_tree
    jallumere replay
    check "replay prints its count" printed '9098 steps, 0 differences'
    check "replay runs where its traces are" printed traces.bin
    jallumere replay
    check "a second replay prints its count" printed '9098 steps, 0 differences'
    check "a second replay proves nothing" [ ! -s "$room/said" ]
    rm "$room/tree/target/bin/replay"
    jallumere replay
    check "replay comes back where its program is gone" printed '9098 steps, 0 differences'
    jallumere test
    check "the gate's last line is printed" printed '3 passed, 0 failed'
    check "the gate passes where rt passes" is_status 0
    printf 'rt: ok; handles allowed: none; must-fail edits: 7 refused, 2 bad; every proof was done\n3 passed, 0 failed\n' >"$room/gate"
    jallumere test
    check "the gate fails where an edit is bad" is_status 1
    check "then too its last line is rt's" eval '[ "$(tail -n 1 "$room/out")" = "3 passed, 0 failed" ]'
    echo 60 >"$room/pause"
    PATH=$room/bin:$PATH "$room/tree/jallumere" test >"$room/out" 2>"$room/said" &
    check "the gate runs a prover" within 10 prover_runs
    kill -TERM $!
    check "TERM ends the gate's provers" within 5 no_prover_left
}

progress() { # LOG-LINES GONE SINCE
    printf '%b' "$1" >"$room/log"
    awk -v gone="$2" -v since="$3" -f "$tree/hosts/tools/progress.awk" part=times "$room/times" part=crates "$room/crates" part=log "$room/log" >"$room/said"
}

test_progress() {
    printf 'one 50\ntwo 100\nthree 50\nfour 200\n' >"$room/crates"
    printf '# seconds\none 100\ntwo 200\nthree 100\npace 50\n' >"$room/times"
    progress '' 0 0
    check "at first by the last times; a crate without one by its lines" said '^crate 0 of 4 proved, 0 s gone, about 6 min 40 s left$'
    progress 'rt: one proved (99 s)\n' 100 0
    check "then by the pace seen now" said '^crate 1 of 4 proved (one), 1 min 40 s gone, about 8 min 10 s left$'
    progress 'rt: one proved (99 s)\n' 160 60
    check "time passes between crates" said '^crate 1 of 4 proved (one), 2 min 40 s gone, about 7 min 10 s left$'
    progress 'rt: one proved (unchanged since it was last proved)\n' 1 0
    check "what was proved before has no pace" said '^crate 1 of 4 proved (one), 1 s gone, about 5 min 50 s left$'
    progress 'rt: one proved (9 s)\nrt: two proved (9 s)\nrt: three proved (9 s)\njallumere: four proved (9 s)\n' 30 0
    check "at the end nothing is left" said '^crate 4 of 4 proved (four), 30 s gone, nearly done$'
    : >"$room/times"
    progress '' 5 5
    check "without any time nothing is promised" said '^crate 0 of 4 proved, 5 s gone$'
    progress 'rt: one proved (9 s)\n' 10 0
    check "without any time it goes by lines" said '^crate 1 of 4 proved (one), 10 s gone, about 1 min 10 s left$'
}

test_terminal() {
    fresh_tree
    if ! command -v script >/dev/null; then return; fi
    PATH=$room/bin:$PATH script -qec "$room/tree/jallumere compare --help; $room/tree/jallumere simulate --quiet --steps 30" /dev/null >"$room/said" 2>&1 </dev/null
    check "on a terminal one line is written over" eval 'grep -q "$(printf "\r\033\[Kjallumere: crate . of 4 proved")" "$room/said"'
}

# What stands in for the core is native code: but where a check says otherwise, every machine is called an x86-64 one.
mkdir -p "$room/native"
printf '#!/bin/sh\n[ "$1" != -m ] || { echo x86_64; exit; }\nexec %s "$@"\n' "$(command -v uname)" >"$room/native/uname"
chmod +x "$room/native/uname"
PATH=$room/native:$PATH

make_rt
make_tools
make_bare_commands
[ $# -gt 0 ] || set -- help bad_words first_command not_proved other_core views state message against traces missing arm 'lock with' 'lock without' signals closed_pipe read_only bench \
    replay_and_gate progress terminal
for name in "$@"; do
    # shellcheck disable=SC2086
    test_$name
done
echo "$passed passed, $failed failed"
[ "$failed" -eq 0 ]
