# How far a proof is, in one line. Reads three files, each with its part set before it: the times of an earlier run
# (part=times), a line 'NAME LINES' for each crate to be proved (part=crates), and what rt has written (part=log).
# 'gone' is the seconds since the start, 'since' those since rt wrote last.

function span(seconds) {
    seconds = int(seconds)
    return seconds < 60 ? seconds " s" : int(seconds / 60) " min " seconds % 60 " s"
}

function weight_of(crate) {
    return crate in seconds ? seconds[crate] : lines[crate] * rate
}

part == "times" && $1 !~ /^#/ { seconds[$1] = $2 }

part == "crates" {
    lines[$1] = $2
    if ($1 in seconds) {
        timed += seconds[$1]
        timed_lines += $2
    }
}

part == "log" && /^(rt|jallumere): [A-Za-z0-9_]+ proved \(/ && ($2 in lines) && !($2 in ended) {
    ended[$2] = $0 ~ /\(unchanged/ ? "before" : "now"
    last = $2
}

END {
    # Crates without a time go by their lines: at the rate of the others, or one by one where no crate has a time.
    rate = timed_lines > 0 ? timed / timed_lines : 1
    for (crate in lines) {
        crates++
        proved += crate in ended
        if (!(crate in ended))
            left += weight_of(crate)
        else if (ended[crate] == "now")
            done += weight_of(crate)
    }
    # The pace of the earlier run counts as much as 150 seconds' worth of crates: the first crates, of which each needs the
    # one before, are proved one by one and tell little of the rest.
    earlier = timed > 0 && "pace" in seconds ? 150 : 0
    heard = gone > since ? gone - since : 0
    line = "crate " proved + 0 " of " crates " proved" (last != "" ? " (" last ")" : "") ", " span(gone) " gone"
    if (done + earlier > 0) {
        remains = left * (heard + earlier * seconds["pace"] / 100) / (done + earlier) - since
        line = line (remains < 10 ? ", nearly done" : ", about " span(remains < 60 ? remains : int(remains / 10 + 0.5) * 10) " left")
    }
    print line
}
