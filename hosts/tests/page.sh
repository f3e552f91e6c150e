#!/usr/bin/env bash
# Tries the page of 'simulate --page' in a browser: 3 sites, 3 groups of 7, and a run with a lost disk, on a desktop and on a
# phone. It opens without a complaint, no element is past the width, a press shows details, print has no buttons.
#
#     hosts/tests/page.sh [DIR]     DIR gets the pages, and pictures to look at
#
# It needs gcc, python3 (its own library alone) and Chromium ('apt-get install chromium'; CHROMIUM=PROGRAM names another).
# Without them it says so and is passed over, with exit status 0. It is run by hand and is no part of the gate. The runs are
# the C model's. The last line is 'N passed, M failed'; the exit status is 1 if any failed.
set -u
tree=$(cd "$(dirname "$0")/../.." && pwd -P)
room=$(mktemp -d)
trap 'rm -rf "$room"' EXIT
into=${1:-$room}
if ! [ -d "$into" ] || ! [ -w "$into" ]; then
    echo "page.sh: '$into' is no folder that can be written to" >&2
    exit 2
fi

find_browser() {
    local name
    for name in ${CHROMIUM:+"$CHROMIUM"} chromium chromium-browser google-chrome; do
        command -v "$name" && return
    done
    return 1
}

browser=$(find_browser) || {
    echo "page.sh: passed over: there is no Chromium here; 'apt-get install chromium'"
    exit 0
}
command -v python3 >/dev/null || {
    echo "page.sh: passed over: there is no python3 here"
    exit 0
}

run() { # NAME WORDS...
    local name=$1
    shift
    JALLUMERE_CORE=model JALLUMERE_BUILD=$room "$tree/jallumere" simulate --quiet --page "$into/$name.html" "$@" >"$room/out" 2>&1 || {
        cat "$room/out" >&2
        exit 2
    }
}

run three
run twenty-one --sites 7 --groups 3 --seed 2
pictures=()
[ $# -eq 0 ] || pictures=(--pictures "$into")
python3 "$tree/hosts/tests/page.py" "$browser" ${pictures[@]+"${pictures[@]}"} "$into/three.html" "$into/twenty-one.html"
