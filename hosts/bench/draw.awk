# Draws what figures.awk has read as an SVG that is taken in at a glance: time against the length of the log for five steps,
# the core's line beside the model's, in the first shape at the greatest capacity; all else is in the tables. Four of the
# steps are what every transaction takes, the fifth starts a view. Both axes begin at 0 and are even, and all panels have the
# same. Where the figures are no nanoseconds, the times' axis has no numbers.

BEGIN {
    panel_width = 214; plot_left = 62; plot_width = 176; plot_top = 146; plot_height = 236
    split("1 transaction, leader;23 tick, leader, 1 due;4 replica sync, 1 new;10 sync status;8 vote, rebuild", wanted, ";")
    split("core model", sides, " ")
    split("core,C model", side_names, ",")
    split("#0072b2 #b35900", colours, " ")
    split("empty 1/16 1/4 half full", fills, " ")
    split("0 0.0625 0.25 0.5 1", shares, " ")
    for (i = 1; i in fills; i++)
        share_of[fills[i]] = shares[i]
}

END {
    if (!failed && rows != 0)
        draw_all()
}

# The rows that are drawn: those wanted of the first shape or, where none of them was measured, its first that are done.
# What is no step has the kind 0, and is not drawn.
function choose_rows(    i, key) {
    for (i = 1; i in wanted; i++) {
        key = 1 SUBSEP wanted[i]
        if (key in done)
            chosen_rows[++panels] = key
    }
    if (panels != 0)
        return
    for (i = 1; i <= rows && panels < 5; i++)
        if (row_shape[row_key[i]] == 1 && row_key[i] in done && row_name[i] !~ /^0 /)
            chosen_rows[++panels] = row_key[i]
}

function find_greatest(    i, j, k, value) {
    for (i = 1; i in capacities; i++)
        if (capacities[i] + 0 > capacities[last_capacity] + 0 || i == 1)
            last_capacity = i
    for (i = 1; i <= panels; i++)
        for (j = 1; j in fills; j++)
            for (k = 1; k <= 2; k++) {
                value = time_of(chosen_rows[i], fills[j], sides[k])
                if (value > greatest)
                    greatest = value
            }
    step = 1
    while (greatest / step > 5)
        step *= greatest / step > 25 ? 10 : greatest / step > 12.5 ? 5 : greatest / step > 10 ? 2.5 : 2
    top_value = step * int(greatest / step + 0.999999)
}

# 0 where it was not measured.
function time_of(row, fill, side,    key) {
    key = row SUBSEP last_capacity SUBSEP fill SUBSEP side
    return key in time ? time[key] + 0 : 0
}

function x_of(share) {
    return plot_left + plot_width * share
}

function y_of(value) {
    return plot_top + plot_height * (1 - value / top_value)
}

function in_words(nanoseconds) {
    if (nanoseconds >= 1000000)
        return sprintf("%.2f ms", nanoseconds / 1000000)
    return nanoseconds >= 1000 ? sprintf("%.0f µs", nanoseconds / 1000) : sprintf("%.0f ns", nanoseconds)
}

function text(class, anchor, x, y, words) {
    printf "<text class=\"%s\" text-anchor=\"%s\" x=\"%.1f\" y=\"%.1f\">%s</text>\n", class, anchor, x, y, words
}

# Numbers stand at the first panel alone, since all have the same axis.
function draw_axes(place,    value) {
    for (value = 0; value <= top_value * 1.0001; value += step) {
        printf "<path class=\"grid\" d=\"M%d %.1fh%d\"/>\n", plot_left, y_of(value), plot_width
        if (with_units && place == 1)
            text("tick", "end", plot_left - 7, y_of(value) + 4, value == 0 ? "0" : in_words(value))
    }
    text("tick", "start", plot_left, plot_top + plot_height + 18, "0")
    text("tick", "end", plot_left + plot_width, plot_top + plot_height + 18, grouped(capacities[last_capacity]))
    printf "<path class=\"axis\" d=\"M%d %dh%d\"/>\n", plot_left, plot_top + plot_height, plot_width
}

# How the line and the points of a side are drawn: 1 the core, 2 the model.
function dashes(side) {
    return side == 1 ? "" : " stroke-dasharray=\"7 4\""
}

function point(x, y, side) {
    return sprintf("<circle cx=\"%.1f\" cy=\"%.1f\" r=\"3.6\" fill=\"%s\" stroke=\"%s\" stroke-width=\"1.8\"/>", \
        x, y, side == 1 ? colours[1] : "#ffffff", colours[side])
}

function draw_line(row, side,    i, x, y, value, line, points) {
    for (i = 1; i in fills; i++) {
        value = time_of(row, fills[i], sides[side])
        if (value == 0)
            continue
        x = x_of(share_of[fills[i]])
        y = y_of(value)
        line = line sprintf("%s%.1f %.1f", line == "" ? "M" : "L", x, y)
        points = points point(x, y, side)
    }
    printf "<path fill=\"none\" stroke=\"%s\" stroke-width=\"2.6\"%s d=\"%s\"/>%s\n", colours[side], dashes(side), line, points
}

# What a full log costs stands at the lines' ends, the greater above its point and the other below.
function draw_ends(row,    side, other, value, y) {
    for (side = 1; with_units && side <= 2; side++) {
        other = time_of(row, "full", sides[3 - side])
        value = time_of(row, "full", sides[side])
        y = y_of(value) + (value > other || value == other && side == 1 ? -11 : 24)
        if (value != 0)
            printf "<text class=\"end\" fill=\"%s\" text-anchor=\"end\" x=\"%.1f\" y=\"%.1f\">%s</text>\n", colours[side], \
                plot_left + plot_width + 4, y, in_words(value)
    }
}

# A name has the kind and the step, and behind a comma which one it is. The model's line lies beneath the core's.
function draw_panel(row, place,    parts, name, which) {
    split(row, parts, SUBSEP)
    name = which = parts[2]
    sub(/,.*/, "", name)
    if (!sub(/^[^,]*, */, "", which))
        which = ""
    printf "<g transform=\"translate(%d 0)\">\n", panel_width * (place - 1)
    text("name", "start", plot_left, plot_top - 30, name)
    text("tick", "start", plot_left, plot_top - 13, which)
    draw_axes(place)
    draw_line(row, 2)
    draw_line(row, 1)
    draw_ends(row)
    print "</g>"
}

function draw_legend(    side, x) {
    x = 24
    for (side = 1; side <= 2; side++) {
        printf "<path d=\"M%d 72h44\" stroke=\"%s\" stroke-width=\"2.6\"%s/>%s<text x=\"%d\" y=\"77\">%s</text>\n", \
            x, colours[side], dashes(side), point(x + 22, 72, side), x + 52, side_names[side]
        x += 120
    }
}

function draw_all(    i, width, height) {
    choose_rows()
    find_greatest()
    width = plot_left + panel_width * (panels > 1 ? panels : 2) - 16
    height = plot_top + plot_height + 46
    printf "<svg xmlns=\"http://www.w3.org/2000/svg\" viewBox=\"0 0 %d %d\" width=\"%d\" height=\"%d\"", \
        width, height, width, height
    print " font-family=\"Helvetica, Arial, sans-serif\" font-size=\"15\">"
    print "<style>.grid{stroke:#dddddd;fill:none}.axis{stroke:#555555;fill:none}.tick{font-size:13px;fill:#444444}" \
        ".name{font-size:16px;font-weight:bold}.end{font-size:13px;font-weight:bold;paint-order:stroke;stroke:#ffffff;stroke-width:5px}</style>"
    print "<rect width=\"100%\" height=\"100%\" fill=\"#ffffff\"/>"
    print "<text x=\"24\" y=\"30\" font-size=\"20\" font-weight=\"bold\">What a step costs, by the length of the log</text>"
    printf "<text x=\"24\" y=\"52\" fill=\"#444444\">Time for one step, up from 0, against entries in the log; %s, C = %s.</text>\n", \
        shapes[1], grouped(capacities[last_capacity])
    draw_legend()
    for (i = 1; i <= panels; i++)
        draw_panel(chosen_rows[i], i)
    text("tick", "middle", width / 2, height - 10, "entries in the log")
    print "</svg>"
}
