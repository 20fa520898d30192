# Each line of a report, and below it, behind four spaces, what its numbers mean.

{
    track()
    print
    text = explanation()
    if (text != "") print "    " text
}

function explanation() {
    if (entry == "ask") return asked_text(number) identifier(bytes) \
        part_text(number, "request", substr(bytes, 17), bytes != "")
    if (entry == "reply" && number != "") return asked_text(number) identifier(bytes) ", " \
        result_text(code) answer_text(number, substr(bytes, 17), bytes != "")
    if (entry == "reply" || entry == "bad raw" && w[3] == "result") {
        return result_text(entry == "reply" ? code : w[4])
    }
    if (entry == "end" && w[3] == "answered") return asked_text(number) ", " \
        result_text(code) answer_text(number, bytes, 1)
    if (entry ~ /^(end|held|late|drop)$/ && number != "") return asked_text(number)
    if (entry == "raw" && length(bytes) >= 16) return raw_text()
    if (entry == "connection") return connection_text()
    return ""
}

# What request n asks for. One whose ask isn't in the report is unknown.
function asked_text(n) {
    if (!(n in ask_type)) return "a request that was made before this report"
    return message_name(ask_protocol[n], ask_side[n], ask_type[n])
}

# The identifier of a message, where its bytes are shown.
function identifier(message) {
    if (message == "") return ""
    return ", identifier " number_of(substr(message, 7, 2) substr(message, 5, 2))
}

# What a payload of request n has, where it is shown.
function part_text(n, part, hex, shown) {
    return shown ? payload_text(ask_protocol[n], ask_side[n], ask_type[n], part, hex) : ""
}

# The payload of an answer, which only success has.
function answer_text(n, hex, shown) {
    return code == "00" ? part_text(n, "response", hex, shown) : ""
}

# What a payload has, or that it doesn't match. A type that isn't known has no fields.
function payload_text(protocol, side, type, part, hex,    key, text) {
    key = protocol SUBSEP side SUBSEP type SUBSEP part
    if (!(key in payload_of)) return hex == "" ? "" : ": payload " hex
    text = fields(payload_of[key], hex)
    if (short) return ": the payload doesn't match, " or_none(hex)
    return text == "" ? "" : ": " text
}

# What injected bytes spell, where they begin as a message does.
function raw_text(    type, protocol, text) {
    type = substr(bytes, 9, 2)
    protocol = protocol_at(from)
    if (number_of(type) < 128) return "a request, " message_name(protocol, "far", type) \
        identifier(bytes) payload_text(protocol, "far", type, "request", substr(bytes, 17))
    type = sprintf("%02x", number_of(type) - 128)
    text = "an answer, " message_name(protocol, "ap", type) identifier(bytes) ", " \
        result_text(substr(bytes, 11, 2))
    if (substr(bytes, 11, 2) != "00") return text
    return text payload_text(protocol, "ap", type, "response", substr(bytes, 17))
}

# The protocol of a connection, where it is known.
function connection_text(    protocol) {
    protocol = protocol_at(end_from(5))
    return protocol == "" ? "" : protocol_text(protocol)
}
