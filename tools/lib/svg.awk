# Draws a chart as an SVG picture: time goes down, a row of the report is a row of the picture, and
# an arrow goes from where a message was sent to where it came.

function draw(    row) {
    place()
    open_picture()
    for (row = 1; row <= NR; row++) if (row_kind[row] == "line") line_rule(row)
    for (i = 1; i <= lanes; i++) lane_rule(i)
    for (m = 1; m <= messages; m++) if (m_row[m] in y || (m in d_row && d_row[m] in y)) arrow(m)
    for (row = 1; row <= NR; row++) if (row in y) label(row)
    legend()
    print "</svg>"
}

# Where the rows and lanes stand, in pixels.
function place(    row, n, letters) {
    top = 56
    letters = 6
    for (row = 1; row <= NR; row++) if (row in row_kind) {
        y[row] = top + 14 + 20 * n++
        if (row_kind[row] == "line") letters = larger(letters, line_letters(row))
    }
    column = 30 + 7.3 * (letters > 44 ? 44 : letters)
    bottom = top + 20 * n + 8
    for (i = 1; i <= lanes; i++) x[lane[i]] = column + 120 + 300 * (i - 1)
    wide = larger(x[lane[lanes]] + 180, 830)
}

function larger(a, b) {
    return a > b ? a : b
}

function line_letters(row) {
    return length(row_text[row]) + (row_refused[row] == "" ? 0 : length(row_refused[row]) + 1)
}

function open_picture() {
    print "<svg xmlns=\"http://www.w3.org/2000/svg\" width=\"" wide "\" height=\"" \
        bottom + 70 "\" viewBox=\"0 0 " wide " " bottom + 70 "\">"
    print "<title>Message sequence chart</title>"
    print "<style>"
    print "text { font: 12px ui-monospace, Menlo, Consolas, \"DejaVu Sans Mono\", monospace; " \
        "fill: #222; stroke: #fff; stroke-width: 3px; paint-order: stroke; }"
    print ".head { font-weight: bold; } .end { text-anchor: end; } .mid { text-anchor: middle; }"
    print ".refused { fill: #c62828; } .plain { stroke: none; }"
    print "</style>"
    print "<rect width=\"100%\" height=\"100%\" fill=\"#fff\"/>"
}

# A text as it is written in a picture.
function escaped(text) {
    gsub(/&/, "\\&amp;", text)
    gsub(/</, "\\&lt;", text)
    gsub(/>/, "\\&gt;", text)
    return text
}

function write_text(class, at_x, at_y, text) {
    print "<text class=\"" class "\" x=\"" at_x "\" y=\"" at_y "\">" escaped(text) "</text>"
}

function rule(x1, y1, x2, y2, style) {
    printf "<path d=\"M%.1f %.1fL%.1f %.1f\" fill=\"none\" %s/>\n", x1, y1, x2, y2, style
}

function line_rule(row) {
    rule(column - 20, y[row], wide - 10, y[row], "stroke=\"#e4e4e4\"")
}

function lane_rule(i,    at, half) {
    at = x[lane[i]]
    half = length(lane_name(lane[i])) * 3.8 + 10
    rule(at, top - 8, at, bottom, "stroke=\"#888\"")
    print "<rect x=\"" at - half "\" y=\"18\" width=\"" 2 * half \
        "\" height=\"28\" rx=\"4\" fill=\"#eef2f7\" stroke=\"#888\"/>"
    write_text("head mid plain", at, 36, lane_name(lane[i]))
}

# The colour of a message, and whether its line is broken.
function style_of(m) {
    if (!(m in d_how)) return "stroke=\"#999\" stroke-dasharray=\"2 4\""
    if (fails(m)) return "stroke=\"#c62828\" stroke-width=\"1.5\""
    if (is_late(m)) return "stroke=\"#d97706\" stroke-width=\"1.5\" stroke-dasharray=\"2 3\""
    if (m_what[m] == "ask") return "stroke=\"#1f4e9c\""
    if (m_what[m] == "raw") return "stroke=\"#7b1fa2\""
    return "stroke=\"" (m_code[m] == "00" ? "#2e7d32" : "#8a5a00") "\" stroke-dasharray=\"6 3\""
}

function fails(m) {
    return fate_of(m) ~ /^(dropped|lost|bad|ignored)$/
}

function is_late(m) {
    return fate_of(m) ~ /^(late|unknown)$/
}

function colour_of(style) {
    return substr(style, 9, index(substr(style, 9), "\"") - 1)
}

# A message: from its row, or the upper edge, to the row in which it came, or the lower edge. One
# that was lost, or didn't come, breaks off.
function arrow(m,    x1, y1, x2, y2, whole, style) {
    x1 = x[lane_of(m_from[m])]
    x2 = x[lane_of(m_to[m])]
    y1 = m_row[m] in y ? y[m_row[m]] : top
    whole = m in d_how && fate_of(m) != "lost"
    y2 = !whole ? y1 + 14 : d_row[m] in y ? y[d_row[m]] : bottom
    x2 += whole ? (x2 > x1 ? -6 : 6) : (x1 - x2) * 0.55
    style = style_of(m)
    rule(x1, y1, x2, y2, style)
    arrow_head(x1, y1, x2, y2, colour_of(style))
    if (fate_of(m) == "lost") cross(x2, y2)
}

function arrow_head(x1, y1, x2, y2, colour,    long, dx, dy) {
    long = sqrt((x2 - x1) * (x2 - x1) + (y2 - y1) * (y2 - y1))
    dx = (x2 - x1) / long
    dy = (y2 - y1) / long
    printf "<path d=\"M%.1f %.1fL%.1f %.1fL%.1f %.1fZ\" fill=\"%s\"/>\n", x2, y2, \
        x2 - 9 * dx + 3.5 * dy, y2 - 9 * dy - 3.5 * dx, \
        x2 - 9 * dx - 3.5 * dy, y2 - 9 * dy + 3.5 * dx, colour
}

function shape(path, fill, edge) {
    print "<path d=\"" path "\" fill=\"" fill "\" stroke=\"" edge "\" stroke-width=\"1.5\"/>"
}

function cross(at_x, at_y) {
    shape("M" at_x - 5 " " at_y - 5 "l10 10m-10 0l10 -10", "none", "#c62828")
}

# The mark of an end or of a message that came.
function put_mark(what, at_x, at_y,    at) {
    at = "M" at_x " " at_y
    if (what == "answered") shape(at "m-5 0a5 5 0 1 0 10 0a5 5 0 1 0 -10 0z", "#2e7d32", "#fff")
    else if (what == "sent") shape(at "m-4 0a4 4 0 1 0 8 0a4 4 0 1 0 -8 0z", "#fff", "#1f4e9c")
    else if (what == "held") shape(at "m-5 -5h10v10h-10z", "#7b1fa2", "#fff")
    else if (what == "cancelled") shape(at "m-5 -5h10v10h-10z", "#fff", "#555")
    else if (what == "timeout") shape(at "m0 -6l6 10h-12z", "#8a5a00", "#fff")
    else if (what == "disconnected") shape(at "m0 -6l6 6l-6 6l-6 -6z", "#fff", "#c62828")
    else if (what ~ /^(late|unknown)$/) shape(at "m0 -6l6 6l-6 6l-6 -6z", "#d97706", "#fff")
    else cross(at_x, at_y)
}

# What a row says. A request stands on its arrow's side of the lane, all else on the other side.
function label(row) {
    if (row_kind[row] == "line") line_label(row)
    else if (row_kind[row] == "note") note_label(row)
    else if (row_kind[row] == "mark") {
        put_mark(mark[row], x[mark_lane[row]], y[row])
        side_text(row, mark_lane[row], peer_lane(row), 1)
    } else message_label(row, sent_at[row])
}

function message_label(row, m) {
    side_text(row, lane_of(m_from[m]), lane_of(m_to[m]), m_what[m] != "ask" && m_what[m] != "raw")
}

# The lane on the other side of the request or the message of which a mark speaks.
function peer_lane(row,    m) {
    m = row in taken_at ? taken_at[row] : marked[row]
    return lane_of(m_to[m]) == mark_lane[row] ? lane_of(m_from[m]) : lane_of(m_to[m])
}

function side_text(row, at, peer, is_outside,    to_right) {
    to_right = (x[peer] > x[at]) != is_outside
    write_text(to_right ? "start" : "end", x[at] + (to_right ? 10 : -10), \
        y[row] + (is_outside ? 4 : -3), row_text[row])
}

function line_label(row,    room, text) {
    room = int((column - 30) / 7.3)
    text = row_text[row]
    if (row_refused[row] != "") {
        text = substr(text, 1, room - length(row_refused[row]) - 1)
        write_text("refused plain", 10 + 7.3 * (length(text) + 1), y[row] + 4, row_refused[row])
    } else if (length(text) > room) text = substr(text, 1, room - 2) ".."
    write_text("plain", 10, y[row] + 4, text)
}

function note_label(row,    half) {
    half = length(row_text[row]) * 3.7 + 6
    print "<rect x=\"" x["ap"] - half "\" y=\"" y[row] - 7 "\" width=\"" 2 * half \
        "\" height=\"15\" rx=\"3\" fill=\"#fff8db\" stroke=\"#d8c27a\"/>"
    write_text("mid plain", x["ap"], y[row] + 4, row_text[row])
}

# What the colours and marks say.
function legend(    i, n, part, at) {
    at = 10
    n = split("ask:#1f4e9c: answer:#2e7d32:6_3 refusal:#8a5a00:6_3 injected:#7b1fa2: " \
        "late_or_unknown:#d97706:2_3 dropped_or_lost:#c62828: not_delivered:#999:2_4", list, " ")
    for (i = 1; i <= n; i++) {
        split(list[i], part, ":")
        gsub(/_/, " ", part[1])
        sub(/_/, " ", part[3])
        rule(at, bottom + 26, at + 26, bottom + 26, "stroke-width=\"1.5\" stroke=\"" part[2] \
            "\" stroke-dasharray=\"" (part[3] == "" ? "none" : part[3]) "\"")
        write_text("plain", at + 32, bottom + 30, part[1])
        at += 46 + 7.3 * length(part[1])
    }
    n = split("answered sent cancelled timeout disconnected held late dropped", list, " ")
    for (at = i = 1; i <= n; i++) {
        put_mark(list[i], at + 14, bottom + 50)
        write_text("plain", at + 26, bottom + 54, list[i])
        at += 46 + 7.3 * length(list[i])
    }
}
