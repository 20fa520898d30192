# Writes the messages of a report with bytes: for Wireshark's text2pcap, each when it was sent
# (`form` is text2pcap), or for `gbus audit`, each when the application processor sent it or took it
# (`form` is audit). `connection` is the number of a connection, or empty for all of them.

{
    track()
    if ((entry == "ask" || entry == "reply" || entry == "raw") && bytes == "") no_bytes = 1
}

END {
    if (no_bytes) {
        print "capture: the report has no bytes: run it with --hex" >"/dev/stderr"
        exit 1
    }
    for (row = 1; row <= NR; row++) {
        if (form == "audit" && row in taken_at) put_taken(taken_at[row])
        if (row in sent_at) put_sent(sent_at[row])
    }
}

function is_wanted(m) {
    return connection == "" || m_connection[m] == connection
}

# A message that the application processor took. What it dropped it didn't take, and bytes that are
# no message aren't one of a capture.
function put_taken(m) {
    if (is_wanted(m) && is_ap(m_to[m]) && fate_of(m) !~ /^(dropped|bad)$/) print "< " m_bytes[m]
}

function put_sent(m) {
    if (!is_wanted(m)) return
    if (form == "text2pcap") put_packet(m)
    else if (is_ap(m_from[m])) print "> " m_bytes[m]
}

# A packet: out of the application processor or in, and its bytes, sixteen a line.
function put_packet(m,    hex, at) {
    print "# " m_from[m] " > " m_to[m] " in line " m_line[m]
    printf is_ap(m_from[m]) ? "O\n" : "I\n"
    hex = m_bytes[m]
    for (at = 0; hex != ""; at += 16) {
        printf "%06x%s\n", at, spaced(substr(hex, 1, 32))
        hex = substr(hex, 33)
    }
}

function spaced(hex,    text) {
    for (text = ""; hex != ""; hex = substr(hex, 3)) text = text " " substr(hex, 1, 2)
    return text
}
