#!/usr/bin/env bash
# try.sh PROGRAM [OTHER]: three sites of the example host live through a commit, a restart, damage, a lost file and a file of
# an older core.
#
# PROGRAM is the example in C or in Rust, built over any core; OTHER, if given, takes every second turn on the same files.
set -u
[ $# -ge 1 ] || {
    echo "usage: $0 PROGRAM [OTHER]" >&2
    exit 2
}
one=$(readlink -f "$1")
two=$(readlink -f "${2:-$1}")
folder=$(mktemp -d) || exit 2
trap 'rm -r "$folder"' EXIT
cd "$folder" || exit 2
mkdir 0 1 2 3 old
passed=0
failed=0

check() { # WORDS EXPECTED FOUND
    if [ "$2" = "$3" ]; then
        passed=$((passed + 1))
    else
        failed=$((failed + 1))
        printf 'failed: %s: expected %s, found %s\n' "$1" "$2" "$3"
    fi
}

size() { stat -c %s "$1"; }
says() { grep -c -- "$1" said; }

# The bytes of a file from an offset on, so many.
part() { tail -c +$(($2 + 1)) "$1" | head -c "$3"; }

# A site's file with its digest made anew: FNV-1a over all that is behind it, in 64 bits, with the low byte first.
with_digest() { # FILE
    local byte place digest=$((0xcbf29ce484222325))
    while read -r byte; do
        digest=$(((digest ^ byte) * 0x100000001b3))
    done < <(tail -c +9 "$1" | od -An -v -tu1 -w1)
    for place in 0 8 16 24 32 40 48 56; do
        printf '%b' "\\0$(printf %o $((digest >> place & 255)))"
    done
    tail -c +9 "$1"
}

# Kind 1 to all sites of group 0: send time 3, bound 2; command 77 of coordinator 9, request 1, for group 0.
printf '\1\0\7\377\377\0\0\0\0\0\0\0\0\0\0\0\2\0\0\0\3\0\0\0\0\0\0\0\2\0\0\0\0\0\0\0\1\0\0\0' >transaction
printf '\0\0\0\0\0\0\0\0\115\0\0\0\0\0\0\0\1\0\0\0\011\0\1\0' >>transaction

for site in 0 1 2; do
    "$one" $site 0 $site first <transaction >sent 2>said
    check "site $site starts" 0 $?
    check "site $site takes the transaction" "0 0" "$(says refused) $(size sent)"
done
"$two" 1 0 1 first </dev/null >sent 2>said
check "a second first start is refused" "1 1" "$? $(says 'not its first start')"

"$two" 0 0 0 again 10 </dev/null >log 2>said
check "the leader releases: kind 4 to sites, kind 5 to the coordinator" "0 52 76" "$? $(size log) $(size 0/replies)"
for site in 1 2; do
    "$one" $site 0 $site again <log >sent 2>said
    check "site $site takes the log and replies" "0 60" "$? $(size $site/replies)"
    "$two" $site 0 $site again 11 </dev/null >report$site 2>said
    check "site $site reports, and replies again what may be lost" "0 36 120" "$? $(size report$site) $(size $site/replies)"
done
cat report1 report2 | "$one" 0 0 0 again >sent 2>said
check "the leader commits" "0 1" "$? $(says 'committed 1: command 77')"
tail -c 72 sent >commits
for site in 1 2; do
    "$two" $site 0 $site again <commits >sent 2>said
    check "site $site commits by its own message alone" "0 1 1" "$? $(says 'committed 1: command 77') $(says 'refused with 3')"
done

"$one" 0 0 0 again 12 </dev/null >sent 2>said
"$two" 0 0 0 again </dev/null >sent 2>said
check "a tick with nothing due leaves nothing to send again" "0 0" "$? $(size sent)"
"$one" 1 0 1 again 12 </dev/null >/dev/full 2>said
check "a report that cannot be sent stops the host" 1 $?
"$two" 1 0 1 again </dev/null >sent 2>said
check "and is sent when it starts again" "0 36" "$? $(size sent)"
printf 'no message' | "$one" 0 0 0 again >sent 2>said
check "what is no message is not taken" "1 1" "$? $(says 'no message')"
for program in "$one" "$two"; do
    (head -c 8 transaction && printf '\1' && tail -c 55 transaction) | "$program" 0 0 0 again >sent 2>said
    check "a malformed message is told with the place where it is wrong" "0 1" "$? $(says 'refused with 2: .*, wrong at byte 8')"
done

cp 0/site kept
printf '\116' | dd of=0/site bs=1 seek=99 conv=notrunc 2>/dev/null
check "one byte of the committed command is changed" 1 "$(cmp -l kept 0/site | wc -l)"
for program in "$one" "$two"; do
    "$program" 0 0 0 again </dev/null >sent 2>said
    check "the digest finds it" "1 1" "$? $(says 'not what was written')"
    cp kept 1/site
    "$program" 1 0 1 again </dev/null >sent 2>said
    check "another site's file is refused" "1 1" "$? $(says 'no good state of this site')"
    head -c 100 kept >1/site
    "$program" 1 0 1 again </dev/null >sent 2>said
    check "a file that is cut is refused" "1 1" "$? $(says 'too short')"
    rm -f 2/site
    "$program" 2 0 2 again </dev/null >sent 2>said
    check "a lost file is not a first start" "1 1" "$? $(says 'never started afresh')"
    "$program" 3 0 3 first </dev/null >sent 2>said
    check "there is no site 3" "1 0" "$? $(find 3 -type f | wc -l)"
    "$program" 3 0 one first </dev/null >sent 2>said
    check "a replica is a number" 1 $?
    "$program" >sent 2>said
    check "usage is told" "1 1" "$? $(says usage)"
done
# Two early entries, of coordinators 8 and 9, stand from byte 6,239 on; the other way round, as an older core may have left them.
(head -c 60 transaction && printf '\10' && tail -c 3 transaction) >other
cat transaction other | "$one" old 0 1 first >sent 2>said
check "a site with two early entries" "0 0 8 9" "$? $(says refused) $(part old/site 6259 1 | od -An -tu1 | tr -d ' ') $(part old/site 6283 1 | od -An -tu1 | tr -d ' ')"
with_digest old/site | cmp -s - old/site
check "its digest is that of the core" 0 $?
cp old/site new
(head -c 6239 new && part new 6263 24 && part new 6239 24 && tail -c +6288 new) >turned
with_digest turned >older
for program in "$one" "$two"; do
    cp turned old/site
    "$program" old 0 1 again </dev/null >sent 2>said
    check "a file with its entries the other way round is damaged" "1 1" "$? $(says 'not what was written')"
    cp older old/site
    "$program" old 0 1 again 5 </dev/null >sent 2>said
    check "an older core's file is put in order, and both entries are released" "0 36 152" "$? $(size sent) $(size old/replies)"
    check "in their order" "8 9" "$(part old/site 111 1 | od -An -tu1 | tr -d ' ') $(part old/site 135 1 | od -An -tu1 | tr -d ' ')"
    : >old/replies
done
echo "$passed passed, $failed failed"
[ "$failed" = 0 ]
