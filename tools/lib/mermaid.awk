# Draws a chart as Mermaid's text. Its arrows are level, so each stands where the message came, and
# says in which line of the script it was sent where that was another.

function draw(    i, row) {
    print "sequenceDiagram"
    for (i = 1; i <= lanes; i++) print "    participant " party(lane[i]) " as " lane_name(lane[i])
    for (row = 1; row <= NR; row++) if (row in row_kind) draw_row(row)
    for (m = 1; m <= messages; m++) {
        if (m_row[m] in row_kind && !(m in d_how)) {
            put_note("over " party(lane_of(m_from[m])) "," party(lane_of(m_to[m])), \
                row_text[m_row[m]] " isn't delivered")
        }
    }
}

function party(at) {
    return at ~ /^[0-9]/ ? "i" at : at
}

# A text of a message or note, in which `#` and `;` are written as entities.
function entities(text) {
    gsub(/;/, "\001", text)
    gsub(/#/, "#35;", text)
    gsub(/\001/, "#59;", text)
    return text
}

function put_note(place, text) {
    print "    Note " place ": " entities(text)
}

function draw_row(row) {
    if (row in taken_at) arrow(taken_at[row], row)
    if (row_kind[row] == "line") {
        put_note("over ap", "line " row_text[row] \
            (row_refused[row] == "" ? "" : ", refused " row_refused[row]))
    }
    if (row_kind[row] == "note") put_note("over ap", row_text[row])
    if (row_kind[row] == "message" && fate_of(sent_at[row]) == "lost") arrow(sent_at[row], row)
    if (row_kind[row] == "mark" && needs_note(row)) shaded_note(row)
}

# The end of a request that no message brought, and a request that is held.
function needs_note(row) {
    return !(row in taken_at) || mark[row] == "held"
}

function shaded_note(row) {
    print "    rect rgb(" (mark[row] == "held" ? "237, 231, 246" : "238, 238, 238") ")"
    put_note("over " party(mark_lane[row]), row_text[row])
    print "    end"
}

# A message: solid where it asks, broken where it answers, with a cross where it came to nothing and
# an open head where it was late.
function arrow(m, row,    line, head, how, text, colour) {
    how = fate_of(m)
    line = m_what[m] == "ask" ? "-" : "--"
    head = how ~ /^(dropped|lost|bad|ignored)$/ ? "x" : how ~ /^(late|unknown)$/ ? ")" : ">>"
    text = sent_text(m) (m_line[m] == d_line[m] ? "" : ", sent in line " m_line[m])
    if (head != ">>") text = text ", " how
    colour = head == "x" ? "253, 226, 226" : head == ")" ? "255, 240, 214" : ""
    if (colour != "") print "    rect rgb(" colour ")"
    print "    " party(lane_of(m_from[m])) line head party(lane_of(m_to[m])) ": " entities(text)
    if (colour != "") print "    end"
}

# What a message says. It may have been sent before the rows that are shown.
function sent_text(m) {
    if (m_row[m] in row_text) return row_text[m_row[m]]
    return (m_number[m] == "" ? "raw" : "#" m_number[m]) " " m_what[m]
}
