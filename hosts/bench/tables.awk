# Prints what figures.awk has read as tables, core beside model at each shape and capacity. With -v markdown=1 it prints
# what stands in docs/SPEED.md: by which compiler (-v gcc=) and in how many seconds (-v taken=) the figures were made, and
# before these tables others that sum them up. What chosen keys cost stands before them too.

BEGIN {
    split("empty half full", fills, " ")
    split("core model", sides, " ")
}

END {
    last = places_in(capacities)
    if (markdown)
        print_summary()
    for (shape = 1; shape in shapes; shape++)
        print_chosen(shape)
    for (shape = 1; shape in shapes; shape++)
        for (capacity = 1; capacity in capacities; capacity++) {
            printf "\n### %s, C = %s\n\n", shapes[shape], grouped(capacities[capacity])
            print_head(head_of_cells())
            for (i = 1; i <= rows; i++)
                if (row_shape[row_key[i]] == shape)
                    print name_of(row_name[i]) cells_of(row_key[i], capacity)
        }
}

function places_in(list,    count) {
    while (count + 1 in list)
        count++
    return count
}

# The columns behind the step are those that the head names.
function print_head(head,    bars) {
    bars = head
    gsub(/[^|]+/, "--:", bars)
    print "| kind | step                    |" head "\n|--:|---|" bars
}

# What is no step has the kind 0, which is not shown.
function name_of(name) {
    return sprintf("| %4s | %-23s |", name + 0 == 0 ? "" : name + 0, substr(name, index(name, " ") + 1))
}

function head_of_cells() {
    if (!with_units)
        return " log empty | log half  | log full  |"
    return " log empty: core ns |  model ns |   ratio   |  log half: core ns |  model ns |   ratio   |" \
        "  log full: core ns |  model ns |   ratio   |"
}

# A cell that alone of its row is refused has (7) behind the ratio.
function cells_of(row, capacity,    i, key, text) {
    for (i = 1; i in fills; i++) {
        key = row SUBSEP capacity SUBSEP fills[i]
        if (with_units)
            text = text sprintf(" %18s | %9s |", grouped(time[key, "core"]), grouped(time[key, "model"]))
        text = text sprintf(" %5.2f%s |", ratio[key], row in done && key in refused ? " (" refused[key] ")" : "    ")
    }
    return text
}

function print_summary(    shape, i) {
    printf "%s; model and bench compiled by gcc %s at `-O3`; the whole run took %d s.\n", \
        with_units ? "Measured on " machine() : "Ratios alone, as under an emulator", gcc, taken
    print "\n### Core ÷ model, in short\n"
    print "Over the three capacities and the three lengths of the log: the least ratio, the geometric mean and the greatest.\n"
    print_spreads()
    for (shape = 1; shape in shapes; shape++) {
        printf "\n### Growth with the log, %s\n\n", shapes[shape]
        print_head(head_of_growth("core") head_of_growth("model"))
        for (i = 1; i <= rows; i++)
            if (row_shape[row_key[i]] == shape && row_key[i] in done)
                print name_of(row_name[i]) growth_of(row_key[i], "core") growth_of(row_key[i], "model")
    }
}

# A line for each row, capacity and attack: the time with a full log of plain and of chosen keys, and their ratio.
function print_chosen(shape,    i, capacity, attack, key) {
    printf "\n### Chosen keys, %s\n\n", shapes[shape]
    print_head(" C     | against  |" head_of_chosen("core") head_of_chosen("model"))
    for (i = 1; i <= rows; i++)
        for (capacity = 1; capacity in capacities; capacity++)
            for (attack = 1; attack in attacks; attack++) {
                key = row_key[i] SUBSEP capacity
                if (row_shape[row_key[i]] == shape && (key, attack, "core") in chosen)
                    print name_of(row_name[i]) sprintf(" %5s | %-8s |", grouped(capacities[capacity]), attacks[attack]) \
                        chosen_of(key, attack, "core") chosen_of(key, attack, "model")
            }
}

function head_of_chosen(side) {
    return with_units ? sprintf(" %16s |  chosen ns |  ratio |", side ": plain ns") : " " side " |"
}

function chosen_of(key, attack, side,    plain, cost) {
    plain = time[key, "full", side]
    cost = chosen[key, attack, side]
    return (with_units ? sprintf(" %16s | %10s |", grouped(plain), grouped(cost)) : "") sprintf(" %6.2f |", cost / plain)
}

# The processor's name as the system tells it, and whether the machine is a virtual one.
function machine(    line, name, article, count) {
    name = "a processor without a name"
    article = "an"
    while ((getline line <"/proc/cpuinfo") > 0) {
        if (line ~ /^model name/)
            name = substr(line, index(line, ":") + 2)
        if (line ~ /^flags.* hypervisor/)
            article = "a virtual"
        count += line ~ /^processor/
    }
    return article " x86-64 machine, " name ", " count " processors"
}

# A line for each row of the last shape, the largest, in which each can happen.
function print_spreads(    shape, i, line, head) {
    for (shape = 1; shape in shapes; shape++)
        head = head " " shapes[shape] ": least | mean | greatest |"
    print_head(head)
    for (i = 1; i <= rows; i++) {
        if (row_shape[row_key[i]] != places_in(shapes))
            continue
        line = name_of(row_name[i])
        for (shape = 1; shape in shapes; shape++)
            line = line spread_of(shape SUBSEP row_name[i])
        print line
    }
}

function spread_of(row,    i, capacity, value, least, most, logs, count) {
    if (!(row in row_shape))
        return " | | |"
    for (capacity = 1; capacity in capacities; capacity++)
        for (i = 1; i in fills; i++) {
            value = ratio[row, capacity, fills[i]] + 0
            least = count == 0 || value < least ? value : least
            most = count == 0 || value > most ? value : most
            logs += log(value)
            count++
        }
    return sprintf(" %.2f | %.2f | %.2f |", least, exp(logs / count), most)
}

function head_of_growth(side) {
    return " " side ": full ÷ empty |" (with_units ? " ns an entry |" : "") " bend | " \
        grouped(capacities[last]) " ÷ " grouped(capacities[last - 1]) " |"
}

# Full beside empty; the cost of a log's second half beside the first; full beside full at the capacity before.
function growth_of(row, side,    empty, half, full, text) {
    empty = time[row, last, "empty", side]
    half = time[row, last, "half", side]
    full = time[row, last, "full", side]
    text = sprintf(" %.1f |", full / empty)
    if (with_units)
        text = text sprintf(" %.1f |", (full - empty) / capacities[last])
    if (full - empty < 0.2 * empty || half <= empty)
        text = text " flat |"
    else
        text = text sprintf(" %.1f |", (full - half) / (half - empty))
    return text sprintf(" %.0f |", full / time[row, last - 1, "full", side])
}
