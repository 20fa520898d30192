# The messages of each protocol: their names, what their payloads have, and the names of results.
#
# A row is `type_row(PROTOCOL, SIDE, TYPE, NAME, REQUEST, RESPONSE)`. PROTOCOL is `svc` or the
# number of a protocol, SIDE is `ap` where the application processor asks and `far` where the SVC
# or a module does. REQUEST and RESPONSE are the fields of the payloads, each `NAME:KIND`; `field`
# has the kinds.

function type_row(protocol, side, type, name, request, response) {
    type_name[protocol, side, type] = name
    payload_of[protocol, side, type, "request"] = request
    payload_of[protocol, side, type, "response"] = response
}

BEGIN {
    split("svc SVC 00 Control 02 GPIO 03 I2C 04 UART 0b SPI 11 Loopback 17 Firmware", pairs, " ")
    for (i = 1; i in pairs; i += 2) protocol_name[pairs[i]] = pairs[i + 1]

    split("00 SUCCESS 01 INTERRUPTED 02 TIMEOUT 03 NO_MEMORY 04 PROTOCOL_BAD 05 OVERFLOW " \
        "06 INVALID 07 RETRY 08 NONEXISTENT fe UNKNOWN_ERROR ff MALFUNCTION", pairs, " ")
    for (i = 1; i in pairs; i += 2) result_name[pairs[i]] = pairs[i + 1]

    type_row("svc", "far", "01", "PROTOCOL_VERSION", "major:u8 minor:u8", "major:u8 minor:u8")
    type_row("svc", "far", "02", "HELLO", "endo:u16 interface:u8", "")
    type_row("svc", "far", "1f", "MODULE_INSERTED", "primary:u8 count:u8 flags:x16", "")
    type_row("svc", "far", "20", "MODULE_REMOVED", "primary:u8", "")
    type_row("svc", "ap", "03", "INTF_DEVICE_ID", "interface:u8 device:u8", "")
    ends = "intf1:u8 cport1:u16 intf2:u8 cport2:u16"
    type_row("svc", "ap", "07", "CONN_CREATE", ends " tc:u8 flags:x8", "")
    type_row("svc", "ap", "08", "CONN_DESTROY", ends, "")
    type_row("svc", "ap", "0b", "ROUTE_CREATE", \
        "intf1:u8 device1:u8 intf2:u8 device2:u8", "")
    type_row("svc", "ap", "0c", "ROUTE_DESTROY", "intf1:u8 intf2:u8", "")
    type_row("svc", "ap", "13", "PING", "", "")
    type_row("svc", "ap", "21", "VSYS_ENABLE", "interface:u8", "result:u8")
    type_row("svc", "ap", "23", "REFCLK_ENABLE", "interface:u8", "result:u8")
    type_row("svc", "ap", "25", "UNIPRO_ENABLE", "interface:u8", "result:u8")
    type_row("svc", "ap", "27", "INTF_ACTIVATE", "interface:u8", "status:u8 type:u8")

    type_row("00", "ap", "01", "VERSION", "major:u8 minor:u8", "major:u8 minor:u8")
    type_row("00", "ap", "03", "GET_MANIFEST_SIZE", "", "size:u16")
    type_row("00", "ap", "04", "GET_MANIFEST", "", "manifest:manifest")
    type_row("00", "ap", "05", "CONNECTED", "cport:u16", "")
    type_row("00", "ap", "06", "DISCONNECTED", "cport:u16", "")
    type_row("00", "ap", "0c", "DISCONNECTING", "cport:u16", "")

    type_row("02", "ap", "02", "LINE_COUNT", "", "lines:count8")
    type_row("02", "ap", "03", "ACTIVATE", "line:u8", "")
    type_row("02", "ap", "04", "DEACTIVATE", "line:u8", "")
    type_row("02", "ap", "05", "GET_DIRECTION", "line:u8", "direction:way8")
    type_row("02", "ap", "06", "DIRECTION_IN", "line:u8", "")
    type_row("02", "ap", "07", "DIRECTION_OUT", "line:u8 value:u8", "")
    type_row("02", "ap", "08", "GET_VALUE", "line:u8", "value:u8")
    type_row("02", "ap", "09", "SET_VALUE", "line:u8 value:u8", "")
    type_row("02", "ap", "0a", "SET_DEBOUNCE", "line:u8 microseconds:u16", "")
    type_row("02", "ap", "0b", "IRQ_TYPE", "line:u8 type:irq8", "")
    type_row("02", "ap", "0c", "IRQ_MASK", "line:u8", "")
    type_row("02", "ap", "0d", "IRQ_UNMASK", "line:u8", "")
    type_row("02", "far", "0e", "IRQ_EVENT", "line:u8", "")

    type_row("03", "ap", "02", "FUNCTIONALITY", "", "functionality:u32")
    type_row("03", "ap", "05", "TRANSFER", "ops:i2c", "read:rest")

    type_row("0b", "ap", "02", "MASTER_CONFIG", "", "bits:x32 least-speed:u32 greatest-speed:u32 " \
        "mode:u16 flags:x16 chip-selects:u8")
    type_row("0b", "ap", "03", "DEVICE_CONFIG", "chip-select:u8", \
        "mode:u16 bits:u8 greatest-speed:u32 type:u8 name:text32")
    type_row("0b", "ap", "04", "TRANSFER", "chip-select:u8 mode:u8 ops:spi", "read:rest")

    type_row("04", "ap", "02", "SEND_DATA", "data:sized", "")
    type_row("04", "far", "03", "RECEIVE_DATA", "data:flagged", "")
    type_row("04", "ap", "04", "SET_LINE_CODING", \
        "rate:u32 format:u8 parity:u8 data-bits:u8 flow-control:u8", "")
    type_row("04", "ap", "05", "SET_CONTROL_LINE_STATE", "control:x8", "")
    type_row("04", "ap", "06", "SEND_BREAK", "state:u8", "")
    type_row("04", "far", "07", "SERIAL_STATE", "control:x8", "")
    type_row("04", "far", "08", "RECEIVE_CREDITS", "count:u16", "")
    type_row("04", "ap", "09", "FLUSH_FIFOS", "flags:x8", "")

    type_row("11", "ap", "02", "PING", "", "")
    type_row("11", "ap", "03", "TRANSFER", "data:carried", "data:carried")
    type_row("11", "ap", "04", "SINK", "data:carried", "")

    type_row("17", "far", "01", "FIND", "tag:text10", "id:u8 size:u32")
    type_row("17", "far", "02", "FETCH", "id:u8 offset:u32 size:u32", "bytes:rest")
    type_row("17", "far", "03", "RELEASE", "id:u8", "")

    split("0 none 1 rising 2 falling 3 both 4 high 8 low", pairs, " ")
    for (i = 1; i in pairs; i += 2) irq_name[pairs[i]] = pairs[i + 1]
}

# The name of a result, as `06 INVALID`.
function result_text(code) {
    return code in result_name ? code " " result_name[code] : code
}

# The name of a message's type with its protocol, as `GPIO ACTIVATE`. A type that the protocol
# doesn't have in this direction is unknown.
function message_name(protocol, side, type) {
    if (!(protocol in protocol_name)) {
        return (protocol == "" ? "protocol unknown" : "protocol " protocol) ", type " type
    }
    if (!((protocol, side, type) in type_name)) {
        return protocol_name[protocol] " type " type ", unknown"
    }
    return protocol_name[protocol] " " type_name[protocol, side, type]
}

# The number that hex digits spell, the first digit first.
function number_of(digits,    i, value) {
    value = 0
    for (i = 1; i <= length(digits); i++) {
        value = value * 16 + index("0123456789abcdef", tolower(substr(digits, i, 1))) - 1
    }
    return value
}

# Takes bytes from the front of `payload`, as hex digits; sets `short` where they aren't there.
function take_hex(bytes,    taken) {
    if (length(payload) < 2 * bytes) {
        short = 1
        return ""
    }
    taken = substr(payload, 1, 2 * bytes)
    payload = substr(payload, 2 * bytes + 1)
    return taken
}

# The same of a number, little endian, as hex digits with the first digit first.
function take_digits(bytes,    taken, digits) {
    taken = take_hex(bytes)
    for (digits = ""; taken != ""; taken = substr(taken, 3)) digits = substr(taken, 1, 2) digits
    return digits
}

function take_number(bytes) {
    return number_of(take_digits(bytes))
}

function or_none(hex) {
    return hex == "" ? "-" : hex
}

# The text that bytes spell, up to the first zero; bytes outside 20 to 7e as `\xNN`.
function text_of(hex,    text, code) {
    for (text = ""; hex != "" && substr(hex, 1, 2) != "00"; hex = substr(hex, 3)) {
        code = number_of(substr(hex, 1, 2))
        text = text (code < 32 || code > 126 ? "\\x" substr(hex, 1, 2) : sprintf("%c", code))
    }
    return "\"" text "\""
}

# The payload of a message, field by field. `short` is set and the text is empty where the payload
# doesn't match.
function fields(spec, hex,    count, list, i, text, parts) {
    payload = hex
    short = 0
    text = ""
    count = split(spec, list, " ")
    for (i = 1; i <= count; i++) {
        split(list[i], parts, ":")
        text = text (i > 1 ? ", " : "") field(parts[1], parts[2])
    }
    if (payload != "") short = 1
    return short ? "" : text
}

# One field: its name and what it has.
function field(name, kind,    value) {
    gsub(/-/, " ", name)
    if (kind ~ /^u/) return name " " take_number(substr(kind, 2) / 8)
    if (kind ~ /^x/) return name " " take_digits(substr(kind, 2) / 8)
    if (kind == "count8") return name " " take_number(1) + 1
    if (kind ~ /^text/) return name " " text_of(take_hex(substr(kind, 5)))
    if (kind == "rest") return name " " or_none(take_hex(length(payload) / 2))
    if (kind == "sized") return name " " or_none(take_hex(take_number(2)))
    if (kind == "i2c") return i2c_ops(take_number(2))
    if (kind == "spi") return spi_ops(take_number(2))
    if (kind == "manifest") return manifest_text(take_hex(length(payload) / 2))
    if (kind == "carried") {
        value = take_number(4)
        return "length " value ", reserved " take_digits(4) " and " take_digits(4) ", " \
            name " " or_none(take_hex(value))
    }
    if (kind == "flagged") {
        value = take_number(2)
        return "flags " take_digits(1) ", " name " " or_none(take_hex(value))
    }
    value = take_number(1)
    if (kind == "irq8") return name " " value (value in irq_name ? " " irq_name[value] : "")
    return name " " value (value == 0 ? " out" : value == 1 ? " in" : "")
}

# The ops of a transfer, in order: `write 02 at 50`, `read 4 at 50`.
function i2c_ops(count,    i, address, flags, size, text) {
    for (i = 1; i <= count && !short; i++) {
        address[i] = take_digits(2)
        flags[i] = take_digits(2)
        size[i] = take_number(2)
    }
    text = count == 0 ? "no ops" : ""
    for (i = 1; i <= count && !short; i++) {
        text = text (i > 1 ? "; " : "")
        if (number_of(flags[i]) % 2) text = text "read " size[i]
        else text = text "write " or_none(take_hex(size[i]))
        text = text " at " substr(address[i], address[i] ~ /^00/ ? 3 : 1)
        if (flags[i] !~ /^000[01]$/) text = text " with flags " flags[i]
    }
    return text
}

# The same of SPI: `write 01`, `read 4`, `exchange 0102`. Flag 1 reads, flag 2 writes.
function spi_ops(count,    i, flags, size, text, way) {
    for (i = 1; i <= count && !short; i++) {
        take_hex(4)
        size[i] = take_number(4)
        take_hex(4)
        flags[i] = take_number(1)
    }
    text = count == 0 ? "no ops" : ""
    for (i = 1; i <= count && !short; i++) {
        way = flags[i] % 4
        text = text (i > 1 ? "; " : "")
        if (way >= 2) text = text (way == 3 ? "exchange " : "write ") or_none(take_hex(size[i]))
        else text = text (way == 1 ? "read " : "neither ") size[i]
    }
    return text
}

# What a manifest declares, in a line, and the protocols of its CPorts in `declared_protocol`.
function manifest_text(hex,    size, type, body, text, cport) {
    split("", declared_protocol)
    text = length(hex) / 2 " bytes"
    payload = substr(hex, 9)
    while (length(payload) >= 8) {
        size = take_number(2)
        type = take_number(1)
        take_hex(1)
        if (size < 4 || length(payload) < 2 * (size - 4)) break
        body = take_hex(size - 4)
        if (type == 2 && size > 6) {
            text = text ", string " text_of(substr(body, 5, 2 * number_of(substr(body, 1, 2))))
        }
        if (type != 4 || size < 8) continue
        cport = number_of(substr(body, 3, 2) substr(body, 1, 2))
        declared_protocol[cport] = substr(body, 7, 2)
        text = text ", CPort " cport " " protocol_text(substr(body, 7, 2))
    }
    payload = ""
    return text
}

function protocol_text(protocol) {
    return protocol in protocol_name ? protocol_name[protocol] : "protocol " protocol
}
