# Reads a report of gbus. `read_entry` parts a line into the variables below; `track` keeps of each
# message when it was sent, and when it was delivered and how, with the row of the report and the
# line of the script. Behind the last line the arrays have all messages.
#
# entry        what the line is: line, ask, reply, end, held, late, drop, raw, bad raw, late label,
#              unknown label, ignored, told, connection, or other words of the report
# number       the request's number, or empty
# from, to     the ends of a message: `svc`, `ap A` or `I C`
# code         the type of an ask, the result of a reply or an answer
# bytes        the message in hex, or the payload of an answer; empty where the report has none
# script_line  the line of the script to which the row belongs
# in_show      whether the row is one of those that `show` tells

# The end that begins at word i. `after` is the word behind it.
function end_from(i) {
    after = i + (w[i] == "svc" ? 1 : 2)
    return w[i] == "svc" ? "svc" : w[i] " " w[i + 1]
}

# The ends from word i on, as in `END > END`.
function read_ends(i) {
    from = end_from(i)
    to = end_from(after + 1)
}

function is_ap(at) {
    return at ~ /^ap /
}

# The end of a connection that isn't the application processor's.
function far_end(a, b) {
    return is_ap(a) ? b : a
}

# The number of a word `#N`, or nothing.
function numbered(word) {
    return word ~ /^#/ ? substr(word, 2) + 0 : ""
}

function read_entry() {
    count = split($0, w, " ")
    entry = w[1]
    number = numbered(w[2])
    from = to = code = bytes = ""
    if (entry == "line" || entry == "now") in_show = entry == "now"
    if (entry == "line" && w[2] !~ /:$/) script_line = w[2] + 0
    if (entry == "line" && w[2] ~ /:$/) entry = "bad line"
    if (entry == "ask" || entry == "reply" || entry == "raw") read_message()
    if (entry == "end" && w[3] == "answered") {
        code = w[4]
        bytes = w[5] == "-" ? "" : w[5]
    }
    if ((entry == "bad" && w[2] == "raw") || w[2] == "label") entry = w[1] " " w[2]
    if (entry ~ /^(irq|uart|serial|credits)$/) {
        from = w[2] " " w[3]
        entry = "told"
    }
}

# An ask, a reply, or raw bytes: its ends, its type or result, and its bytes.
function read_message() {
    read_ends(entry == "raw" ? 2 : 3)
    if (entry != "raw") {
        code = w[after + 1]
        after += 2
    }
    bytes = w[after + 2] ~ /^[0-9a-f]+$/ ? w[after + 2] : ""
}

# The protocol of the connection to an end: `svc`, a protocol's number, or empty where the report
# doesn't tell it.
function protocol_at(at) {
    if (at == "svc") return "svc"
    if (at ~ / 0$/) return "00"
    return at in protocol_told ? protocol_told[at] : ""
}

# Keeps a message that was sent in this row.
function sent(what,    m) {
    m = ++messages
    m_what[m] = what
    m_number[m] = number
    m_from[m] = from
    m_to[m] = to
    m_code[m] = code
    m_bytes[m] = bytes
    m_row[m] = NR
    m_line[m] = script_line
    m_connection[m] = from == "svc" || to == "svc" ? 1 : live[far_end(from, to)]
    sent_at[NR] = m
    if (is_ap(to)) queue[from, ++last[from]] = m
    return m
}

# Keeps that message m was delivered in this row, and what became of it.
function delivered(m, how) {
    if (m == "" || m in d_how) return
    d_how[m] = how
    d_row[m] = NR
    d_line[m] = script_line
    taken_at[NR] = m
    if (is_ap(m_to[m])) pop(m_from[m], m)
}

# What became of message m, or nothing where that isn't told.
function fate_of(m) {
    return m in d_how ? d_how[m] : ""
}

# Takes the messages up to m from the queue toward the application processor.
function pop(at, m,    i) {
    for (i = first[at] + 1; i <= last[at]; i++) {
        if (queue[at, i] == m) {
            first[at] = i
            return
        }
    }
}

# The message that waits longest for the application processor on the connection to an end.
function front(at) {
    return first[at] < last[at] ? queue[at, first[at] + 1] : ""
}

# The end whose front message an entry without a number speaks of: of those on which bytes were
# injected the first in the order of a settle, where the front message has the identifier `label`,
# or none was asked for.
function front_of_unclean(label, raw_alone,    at, found, m, id) {
    found = ""
    for (at in unclean) {
        m = front(at)
        if (m == "" || (raw_alone && m_what[m] != "raw")) continue
        id = identifier_of(m)
        if (label != "" && id != "" && id != label) continue
        if (found == "" || ap_cport[at] < ap_cport[found]) found = at
    }
    return found == "" ? "" : front(found)
}

# The oldest answer to a raw request that is still on its way, with that identifier.
function raw_answer(label,    i, m) {
    for (i = 1; i <= raw_answers; i++) {
        m = raw_answered[i]
        if (!(m in d_how) && (label == "" || identifier_of(m) == label)) return m
    }
    return ""
}

# The identifier of a message, or nothing where its bytes aren't shown.
function identifier_of(m) {
    if (m_bytes[m] == "") return ""
    return number_of(substr(m_bytes[m], 7, 2) substr(m_bytes[m], 5, 2))
}

# The message of which an entry speaks that names no request.
function nameless(label,    m) {
    m = front_of_unclean(label, label == "")
    return m == "" ? raw_answer(label) : m
}

function track() {
    read_entry()
    if (entry == "ask") track_ask()
    else if (entry == "reply") track_reply()
    else if (entry == "raw") {
        unclean[from] = 1
        sent("raw")
    } else if (entry == "end") track_end()
    else if (entry == "held") delivered(ask_of[number], "held")
    else if (entry == "late") delivered(reply_of[number], "late")
    else if (entry == "drop") track_drop()
    else if (entry == "bad raw") delivered(front_of_unclean("", 1), "bad")
    else if (entry == "ignored") delivered(front_of_unclean("", 1), "ignored")
    else if (entry ~ / label$/) delivered(nameless(w[3]), w[1])
    else if (entry == "told" && just_served != from) delivered(front(from), "served")
    else if (entry == "connection") track_connection()
    if (entry != "told") just_served = entry == "reply" ? to : ""
}

function track_ask(    m) {
    m = ask_of[number] = sent("ask")
    ask_from[number] = from
    ask_to[number] = to
    ask_type[number] = code
    ask_protocol[number] = protocol_at(far_end(from, to))
    ask_side[number] = is_ap(from) ? "ap" : "far"
    if (w[count] == "lost") {
        d_how[m] = "lost"
        d_row[m] = NR
        d_line[m] = script_line
    }
}

# A request that was served: its reply is sent, of which a raw one has no number.
function track_reply(    served) {
    served = number == "" ? front_of_unclean("", 1) : ask_of[number]
    if (fate_of(served) != "held") delivered(served, "served")
    if (number == "") raw_answered[++raw_answers] = sent("raw reply")
    else reply_of[number] = sent("reply")
}

# On a connection on which bytes were injected, whatever is first in the queue ended the request.
function track_end() {
    ended_row[number] = NR
    ended_line[number] = script_line
    ended_how[number] = w[3]
    ended_code[number] = code
    ended_reading[number] = ""
    if (w[count - 1] == "=") ended_reading[number] = w[count]
    if (w[3] != "answered") return
    if (is_ap(ask_from[number]) && ask_to[number] in unclean) {
        delivered(front(ask_to[number]), "ended")
    } else delivered(reply_of[number], "ended")
    if (code == "00" && ask_protocol[number] == "00" && ask_type[number] == "04") {
        learn_manifest(ask_to[number])
    }
}

# The protocols of a module's CPorts, from its manifest.
function learn_manifest(control,    intf, cport) {
    split(control, parts_of_end, " ")
    intf = parts_of_end[1]
    manifest_text(bytes)
    for (cport in declared_protocol) {
        protocol_told[intf " " cport] = declared_protocol[cport]
    }
}

function track_drop() {
    if (number == "") delivered(nameless(""), "dropped")
    else if (w[3] == "reply") delivered(reply_of[number], "dropped")
    else if (ask_of[number] in d_how) dropped_later[ask_of[number]] = NR
    else delivered(ask_of[number], "dropped")
}

# `connection K ap A END STATE`, or in what `show` tells `connection K ap A END protocol PP STATE`.
function track_connection(    at) {
    at = end_from(5)
    if (w[after] == "protocol") protocol_told[at] = w[after + 1]
    if (w[after] == "opening") {
        live[at] = w[2]
        ap_cport[at] = w[4] + 0
    }
    if (w[after] == "closed") {
        first[at] = last[at]
        delete unclean[at]
    }
}
