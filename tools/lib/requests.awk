# One line a request: who asked whom for what, the lines of the script in which it was asked, served
# and ended, and what became of it.

{ track() }

entry == "ask" { order[++asks] = number }

END {
    title[1] = "request"
    title[2] = "from > to"
    title[3] = "type"
    title[4] = "asked"
    title[5] = "served"
    title[6] = "ended"
    title[7] = "what became of it"
    put(0, title)
    for (i = 1; i <= asks; i++) {
        tell(order[i], cells)
        put(i, cells)
    }
    for (i = 0; i <= asks; i++) print_row(i)
}

# Keeps a row, and how wide its columns are.
function put(i, row_cells,    c) {
    for (c = 1; c <= 7; c++) {
        kept[i, c] = row_cells[c]
        if (length(row_cells[c]) > width[c]) width[c] = length(row_cells[c])
    }
}

function print_row(i,    c) {
    for (c = 1; c < 7; c++) printf "%-" width[c] "s  ", kept[i, c]
    print kept[i, 7]
}

function tell(n, row_cells,    m) {
    m = ask_of[n]
    row_cells[1] = "#" n
    row_cells[2] = ask_from[n] " > " ask_to[n]
    row_cells[3] = message_name(ask_protocol[n], ask_side[n], ask_type[n])
    row_cells[4] = m_line[m]
    row_cells[5] = served_line(n, m)
    row_cells[6] = n in ended_line ? ended_line[n] : "-"
    row_cells[7] = outcome(n) fate(n, m)
}

# The line in which a request was served: that of its reply, or of its delivery where it has none.
function served_line(n, m) {
    if (n in reply_of) return m_line[reply_of[n]]
    return fate_of(m) == "served" ? d_line[m] : "-"
}

function outcome(n) {
    if (!(n in ended_how)) return "open"
    if (ended_how[n] != "answered") return ended_how[n]
    return "answered " result_text(ended_code[n]) \
        (ended_reading[n] == "" ? "" : " = " ended_reading[n])
}

# What became of its messages besides.
function fate(n, m,    text, r) {
    text = ""
    if (fate_of(m) == "lost") text = ", lost"
    if (fate_of(m) == "held") text = ", held in line " d_line[m]
    if (fate_of(m) == "dropped" || m in dropped_later) text = text ", dropped"
    if (!(n in reply_of)) return text
    r = reply_of[n]
    if (fate_of(r) == "late") text = text ", its answer late in line " d_line[r]
    if (fate_of(r) == "dropped") text = text ", its answer dropped in line " d_line[r]
    if (fate_of(r) == "unknown") text = text ", its answer unknown in line " d_line[r]
    return text
}
