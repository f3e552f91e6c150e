# Reads what 'bench --csv' prints, for tables.awk and draw.awk, which stand behind it on the command line:
#
#     ./jallumere bench --csv | awk -f figures.awk -f draw.awk >speed.svg
#
# It leaves shapes[1..] ("n = 3, S = 1") and capacities[1..] in the order of their first lines; rows, with row_key[1..] (the
# shape's place and the name), row_shape[key] and row_name[1..]; time[key, the capacity's place, fill, side], ratio[key,
# the capacity's place, fill]; done[key] where the row's step is done, and refused[..] of a cell that has another answer
# than 0. With ratios alone (bench --csv --ratios) the times are no nanoseconds, and with_units is 0. Cells with chosen
# transactions, whose logs are full, are apart: attacks[1..] are their names, and chosen[key, the capacity's place, the
# attack's place, side] their times.

# The name of a step stands in quotation marks and has commas of its own, so it is taken out before the fields are cut.
{
    split($0, quoted, "\"")
    step = quoted[2]
    split(quoted[1] quoted[3], field, ",")
}

NR == 1 {
    split($0, title, ",")
    if (title[1] != "kind" || title[8] !~ /^core/ || title[9] !~ /^model/ || title[11] != "keys")
        fail("these are not the lines of bench --csv")
    with_units = title[8] == "core_ns"
    next
}

{
    if (field[6] !~ /^(empty|1\/16|1\/4|half|full)$/ || field[8] <= 0 || field[9] <= 0)
        fail("line " NR " is no line of bench --csv")
    shape_place = place_of("n = " field[3] ", S = " field[4], shape_places, shapes)
    capacity_place = place_of(field[5], capacity_places, capacities)
    row = shape_place SUBSEP field[1] " " step
    if (!(row in row_shape)) {
        row_shape[row] = shape_place
        row_name[++rows] = field[1] " " step
        row_key[rows] = row
    }
    if (field[11] != "plain") {
        attack_place = place_of(field[11], attack_places, attacks)
        chosen[row, capacity_place, attack_place, "core"] = field[8]
        chosen[row, capacity_place, attack_place, "model"] = field[9]
        next
    }
    if (field[7] == 0)
        done[row] = 1
    else
        refused[row, capacity_place, field[6]] = field[7]
    time[row, capacity_place, field[6], "core"] = field[8]
    time[row, capacity_place, field[6], "model"] = field[9]
    ratio[row, capacity_place, field[6]] = field[10]
}

END {
    if (failed)
        exit 2
    if (rows == 0)
        fail("there are no lines of bench --csv")
}

function fail(why) {
    print "figures.awk: " why >"/dev/stderr"
    failed = 1
    exit 2
}

# The place of a value among those that have been seen, from 1 in the order of their first lines; their number is the
# place of the empty word.
function place_of(value, places, values) {
    if (!(value in places)) {
        places[value] = ++places[""]
        values[places[value]] = value
    }
    return places[value]
}

# A whole number with a comma at each thousand.
function grouped(value,    digits, behind) {
    digits = sprintf("%.0f", value)
    while (length(digits) > 3) {
        behind = "," substr(digits, length(digits) - 2) behind
        digits = substr(digits, 1, length(digits) - 3)
    }
    return digits behind
}
