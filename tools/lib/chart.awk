# Gathers what a message sequence chart of a report shows, and has it drawn by `draw`, which stands
# in mermaid.awk and svg.awk. The variables `least` and `greatest` are the lines of the script that
# are shown, and `script` is its file, or empty.
#
# Each row that is shown has a kind in `row_kind`:
#   line    a line of the script was done or refused
#   message an ask, a reply or raw bytes were sent: `sent_at`; `taken_at` is the message that came
#   mark    a message came, or a request ended: `mark_lane`, `mark`, and `marked`, its request
#   note    what the application processor knows now

BEGIN {
    for (n = 1; script != "" && (getline text <script) > 0; n++) {
        sub(/\r$/, "", text)
        script_text[n] = text
    }
}

{
    track()
    if (script_line >= least && script_line <= greatest) gather()
}

END {
    for (m = 1; m <= messages; m++) if (is_shown(m)) add_lanes(m)
    for (i = 2; i <= 31; i++) if (i in lane_used) lane[++lanes] = i
    draw()
}

# What of a row is shown.
function gather() {
    if (entry == "line") {
        row_kind[NR] = "line"
        row_text[NR] = w[2] (w[2] in script_text ? "  " script_text[w[2]] : "")
        row_refused[NR] = w[3] == "refused" ? w[4] : ""
    } else if (NR in sent_at) {
        row_kind[NR] = "message"
        row_text[NR] = message_text(sent_at[NR])
    } else if (entry == "end") {
        set_mark(lane_of(ask_from[number]), w[3], end_text())
    } else if (entry == "drop" && !(NR in taken_at) && number != "") {
        set_mark(lane_of(ask_to[number]), "dropped", "#" number " dropped")
    } else if (entry == "told") {
        set_note($0)
    } else if (NR in taken_at) {
        set_mark(lane_of(m_to[taken_at[NR]]), fate_of(taken_at[NR]), $0)
    } else if (entry ~ /^(interface|connection|manifest)$/ && !in_show) {
        set_note(entry == "connection" ? connection_note() : $0)
    } else if (entry == "bad line") {
        set_note($0)
    }
}

function set_mark(at, what, text) {
    row_kind[NR] = "mark"
    marked[NR] = ask_of[number]
    mark_lane[NR] = at
    mark[NR] = what
    row_text[NR] = text
}

function set_note(text) {
    row_kind[NR] = "note"
    row_text[NR] = text
}

function lane_of(at,    parts) {
    split(at, parts, " ")
    return parts[1]
}

function message_text(m) {
    if (m_what[m] == "raw") return "injected, " w[count - (m_bytes[m] != "")] " bytes"
    if (m_what[m] == "raw reply") return "answer " result_text(code)
    if (m_what[m] == "reply") return "#" number " " result_text(code)
    return "#" number " " message_name(ask_protocol[number], ask_side[number], code)
}

function end_text() {
    if (w[3] != "answered") return "#" number " " w[3]
    if (code != "00") return "#" number " answered " result_text(code)
    return "#" number " answered" (w[count - 1] == "=" ? " = " w[count] : "")
}

# `connection K to I C STATE`, with the protocol where it is known.
function connection_note(    at, protocol) {
    at = end_from(5)
    protocol = protocol_at(at)
    return "connection " w[2] " to " at (protocol == "" ? "" : " (" protocol_text(protocol) ")") \
        " " w[after]
}

# Whether a message was sent or came in the rows that are shown.
function is_shown(m) {
    return m_row[m] in row_kind || (m in d_row && d_row[m] in row_kind)
}

# The lanes, from the left: the SVC where it speaks, the application processor, the interfaces.
function add_lanes(m) {
    if (!lanes && uses_svc()) lane[++lanes] = "svc"
    if (!has_ap++) lane[++lanes] = "ap"
    lane_used[lane_of(m_from[m])]
    lane_used[lane_of(m_to[m])]
}

function uses_svc(    m) {
    for (m = 1; m <= messages; m++) {
        if (is_shown(m) && (m_from[m] == "svc" || m_to[m] == "svc")) return 1
    }
    return 0
}

function lane_name(at) {
    return at == "svc" ? "SVC" : at == "ap" ? "application processor" : "interface " at
}
