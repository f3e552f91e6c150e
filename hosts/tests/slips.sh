#!/usr/bin/env bash
# Wrong programs: the C model with one slip, in the place of the core. compare must find a difference, and simulate, where one
# of its promises speaks of what is wrong, a promise that fails. The last line is 'N found, M missed'; the exit status is 1 if
# any was missed. With words, only the slips named. A slip's old text stands once in its file. It takes some minutes.
set -u
tree=$(cd "$(dirname "$0")/../.." && pwd -P)
room=$(mktemp -d)
trap 'rm -rf "$room"' EXIT
found=0 missed=0
wanted=" $* "

compile() { # FLAGS AND SOURCES
    gcc -std=c11 -O1 "$@"
}

# The two programs but for their core; simulate without a page.
make_programs() {
    mkdir -p "$room/programs"
    echo 'static const char page_head[] = "", page_tail[] = "";' >"$room/page.h"
    (cd "$room/programs" && compile -I "$tree/include" -I "$room" -c "$tree"/hosts/{compare/compare,simulate/simulate,common/places,model/model}.c) || exit 2
}

# Copies what a core is made of, puts the slip in, and links the programs with it.
make_core() { # FILE OLD NEW
    local text without program
    rm -rf "$room/hosts" "$room/include"
    mkdir "$room/hosts"
    cp -R "$tree/hosts/model" "$tree/hosts/common" "$room/hosts" && cp -R "$tree/include" "$room" || exit 2
    text=$(<"$room/hosts/$1")
    without=${text//"$2"/}
    [ $((${#text} - ${#without})) -eq ${#2} ] || return 1
    printf '%s\n' "${text/"$2"/"$3"}" >"$room/hosts/$1"
    compile -c -o "$room/core.o" "$room/hosts/model/core.c" || return 1
    for program in compare simulate; do
        compile -o "$room/$program" "$room"/programs/{"$program",places,model}.o "$room/core.o" || return 1
    done
}

run() { "$room/$1" "${@:2}" >"$room/out" 2>"$room/said" </dev/null; }

by_compare() { ! run compare --steps 20000 && grep -q '^DIFFERENCE' "$room/out"; }

by_simulate() {
    local seed shape
    for seed in {1..12}; do
        for shape in '3 1' '3 2' '5 2' '5 3'; do
            # shellcheck disable=SC2086
            set -- $shape
            run simulate --quiet --seed "$seed" --sites "$1" --groups "$2" --loss 20 --repeat 10 --steps $((800 * $1 * $2)) || {
                grep -q 'A PROMISE FAILED' "$room/said"
                return
            }
        done
    done
    return 1
}

# By simulate too, through many views, each with entries of its own; and by the promise that what was committed in a view
# stands in later ones, so that a seed with which another one fails first does not count.
through() { # GROUPS WORDS
    local seed sites
    for seed in {1..40}; do
        for sites in 3 5; do
            run simulate --quiet --seed "$seed" --sites "$sites" --groups "$1" --capacity 256 --loss 20 --repeat 10 --steps $((2000 * sites * $1)) ||
                ! grep -q "A PROMISE FAILED.* the entry committed at position [0-9]* in view $2 " "$room/said" || return 0
        done
    done
    return 1
}

# In a log of any later view.
by_views() { through 1 '[0-9]* does not stand there in a log that a site had in'; }

# In a log rebuilt from votes of the first view.
by_drafts() { through 2 '0 does not stand there in the log rebuilt for'; }

told() { # NAME BY WHETHER
    if [ "$3" -eq 0 ]; then found=$((found + 1)); else missed=$((missed + 1)); fi
    printf '%-35s %-9s ' "$1" "$2"
    if [ "$3" -eq 0 ]; then grep -h -m 1 -e '^DIFFERENCE' -e PROMISE "$room/out" "$room/said"; else echo MISSED; fi
}

slip() { # NAME FILE OLD NEW FOUND-BY...
    local name=$1 by status
    [ "$wanted" = '  ' ] || [[ $wanted = *" $name "* ]] || return
    make_core "$2" "$3" "$4" || {
        told "$name" 'no core' 1
        return
    }
    shift 4
    for by in "$@"; do
        "by_$by"
        status=$?
        told "$name" "$by" "$status"
    done
}

make_programs

# ---- the order of timestamp, coordinator, request

slip request_before_coordinator common/layout.h \
    'one.transaction > other.transaction' \
    '(one.transaction << 32 | one.transaction >> 32) > (other.transaction << 32 | other.transaction >> 32)' compare simulate
slip ties_by_arrival common/layout.h \
    '(one.timestamp == other.timestamp && one.transaction > other.transaction)' 'false' compare simulate
slip equal_times_in_a_log model/model.c \
    'bool in_range = later(own, last) &&' 'bool in_range = own.timestamp >= last.timestamp &&' compare
slip lifted_to_the_last model/model.c \
    'own->last.timestamp + 1 : due' 'own->last.timestamp : due' compare simulate
slip lifted_needlessly model/model.c \
    'own->leads && !follows ? own->last.timestamp + 1' 'own->leads && due <= own->last.timestamp ? own->last.timestamp + 1' compare simulate
slip lifted_past_the_greatest model/model.c \
    'stamp > GREATEST_TIMESTAMP' 'stamp > GREATEST_TIMESTAMP + 1' compare
slip lifted_short_of_the_greatest model/model.c \
    'stamp > GREATEST_TIMESTAMP' 'stamp >= GREATEST_TIMESTAMP' compare
slip lifted_before_known model/model.c \
    'if (index_find(&work.known, transaction) != NOWHERE)' \
    'if (stamp > GREATEST_TIMESTAMP) return JALLUMERE_FULL; if (index_find(&work.known, transaction) != NOWHERE)' compare
slip early_tie_is_good model/model.c \
    '(row){.last = own->last,' '(row){.last = {own->last.timestamp, 0},' compare
slip tie_kept_early model/model.c \
    'early = own->leads || follows' 'early = own->leads || due >= own->last.timestamp' compare simulate
slip sync_leaves_tie_early model/model.c \
    '!later(key_of(early_entry(now, lost)), last)' 'timestamp_of(early_entry(now, lost)) < last.timestamp' compare simulate
slip sync_loses_tie model/model.c \
    'gather_late(own, lost);' 'gather_late(own, lost - (lost != 0 && timestamp_of(early_entry(now, lost - 1)) == last.timestamp));' compare
slip rebuilt_by_time model/model.c \
    'if (later(entry.key, last) &&' 'if (entry.key.timestamp > last.timestamp &&' compare simulate
slip rebuilt_from_boundary model/model.c \
    'if (later(entry.key, last) &&' 'if (entry.key.timestamp >= last.timestamp &&' compare simulate
slip told_past_the_boundary model/model.c \
    'timestamp_of(bytes) >= now->told.numbers[0]' 'timestamp_of(bytes) > now->told.numbers[0]' compare simulate

# ---- early in this order

slip put_behind_a_greater_coordinator model/model.c \
    'early_before(&now->own, 0, key_of(bytes))' 'early_before(&now->own, 0, (key){timestamp_of(bytes), UINT64_MAX})' compare simulate
slip put_before_a_smaller_coordinator model/model.c \
    'early_before(&now->own, 0, key_of(bytes))' 'early_before(&now->own, 0, (key){timestamp_of(bytes), 0})' compare simulate
slip put_at_the_end model/model.c \
    'place = early_before(&now->own, 0, key_of(bytes))' 'place = count' compare simulate
slip put_before_it_is_lifted model/model.c \
    'if (agreed != 0)
        store(bytes, agreed, 8);
    if (early)
        insert_early(now, bytes);' \
    'if (early) {
        insert_early(now, bytes);
        store(early_entry(now, early_before(own, 0, key_of(bytes))), agreed != 0 ? agreed : stamp, 8);
    }' compare simulate
slip lifted_in_place model/model.c \
    'ENTRY_LENGTH * (size_t)early_before(&now->own, place + 1, key_of(moved))' '0' compare simulate
slip lifted_behind_a_greater_coordinator model/model.c \
    'early_before(&now->own, place + 1, key_of(moved))' 'early_before(&now->own, place + 1, (key){timestamp, UINT64_MAX})' compare simulate
slip synced_to_late_in_reverse model/model.c \
    'own->at.early + entry_place(i - own->late)' 'own->at.early + entry_place(lost - 1 - (i - own->late))' compare
slip order_not_asked_by_a_step model/model.c \
    'good_state(&now.own, state, EARLY_RISES, NULL)' 'good_state(&now.own, state, NULL, NULL)' compare
slip order_not_asked model/model.c \
    'bool good = sizes_fit(n, s, c, state_length, &own.at) && good_state(&own, state, EARLY_RISES, NULL)' \
    'bool good = sizes_fit(n, s, c, state_length, &own.at) && good_state(&own, state, NULL, NULL)' compare simulate
slip order_asked_in_status_1_alone model/model.c \
    '.rising = early_rises' '.rising = own->status == JALLUMERE_STATUS_NORMAL ? early_rises : NULL' compare
slip order_asked_of_timestamps_alone model/model.c \
    'last = rising ? own : last' 'last = rising ? (key){own.timestamp, first == 0 ? own.transaction : 0} : last' compare
slip ordered_by_timestamps_alone model/model.c \
    'work.items[i] = item_of(early + ENTRY_LENGTH * i)' \
    'work.items[i] = (item){{timestamp_of(early + ENTRY_LENGTH * i), 0}, early + ENTRY_LENGTH * i}' compare simulate
slip ordered_without_the_last model/model.c \
    'copy(early, room, ENTRY_LENGTH * (size_t)own.early);' \
    'copy(early, room, ENTRY_LENGTH * (size_t)own.early);
    if (own.early != 0 && work.items[0].bytes != early)
        shorten(early - 4, ENTRY_LENGTH, own.early - 1);' compare simulate
slip ordered_with_late model/model.c \
    'copy(early, room, ENTRY_LENGTH * (size_t)own.early);' \
    'copy(early, room, ENTRY_LENGTH * (size_t)own.early);
    uint8_t *late = state + own.at.late + 4;
    for (uint64_t i = 0; i < own.late; i++)
        work.items[i] = item_of(late + ENTRY_LENGTH * i);
    order_items(work.items, own.late);
    put_items(room, own.late);
    copy(late, room, ENTRY_LENGTH * (size_t)own.late);' compare simulate
slip ordered_where_not_good model/model.c \
    '!good_state(&own, state, NULL, NULL)' '(good_state(&own, state, NULL, NULL), false)' compare
slip ordered_where_good_alone model/model.c \
    '!good_state(&own, state, NULL, NULL)' '!good_state(&own, state, EARLY_RISES, NULL)' compare simulate

# ---- through several views

slip votes_of_older_views_counted model/model.c \
    'count = rebuild(&own->at, votes, &boundary);' \
    '{
        for (uint64_t i = 0; i < own->at.n; i++)
            votes[i].numbers[LAST_NORMAL] = 0;
        count = rebuild(&own->at, votes, &boundary);
    }' compare views
slip vote_of_the_view_before model/model.c \
    'cast.numbers[LAST_NORMAL] = now->own.last_normal' 'cast.numbers[LAST_NORMAL] = now->told.view - 1' compare views
slip vote_of_the_first_view model/model.c \
    'cast.numbers[LAST_NORMAL] = now->own.last_normal' 'cast.numbers[LAST_NORMAL] = 0' compare views
slip vote_without_its_sync_point model/model.c \
    'cast.numbers[SYNC_POINT] = now->own.sync' 'cast.numbers[SYNC_POINT] = 0' compare views drafts
slip start_keeps_last_normal model/model.c \
    'memcpy(now->state + AT_LAST_NORMAL, now->state + AT_VIEW, 4);' '' compare simulate
slip start_taken_by_half model/model.c \
    'become_normal(now, now->told.entries, now->told.count);' 'become_normal(now, now->told.entries, now->told.count / 2);' compare views

echo "$found found, $missed missed"
[ "$missed" -eq 0 ]
