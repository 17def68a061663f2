# packets.awk: the tables of `bin/measure packets`, from the rows that oracle/src/benchpackets.rs has counted (oracle/counting.sh): two or three for each
# packet, each with ours and another one's count.

BEGIN {
    FS = "|"
    print "| Packet | Bytes | hub_packet | Second reader | Ratio | hub_packet_lines | Second reader | Ratio | Paho C |"
    print "|---|---|---|---|---|---|---|---|---|"
}

$1 != packet { told(); packet = $1; bytes = $2; row = 0 }
{ ours[packet, ++row] = $3; others[packet, row] = $4 }

END {
    told()
    print "\n| More for each | hub_packet | Second reader | hub_packet_lines | Second reader | Paho C |"
    print "|---|---|---|---|---|---|"
    more("byte of a topic", "PUBLISH, topic 16, payload 8", "PUBLISH, topic 128, payload 8", 112)
    more("byte of a payload, up to 256", "PUBLISH, topic 16, payload 8", "PUBLISH, topic 16, payload 256", 248)
    more("filter of 16 bytes", "SUBSCRIBE, filters 3", "SUBSCRIBE, filters 100", 97)
}

# The row of the packet that is at hand.
function told(    n, cells) {
    if (row == 0) return
    for (n = 1; n <= 2; n++) cells = cells sprintf(" %d | %d | %.2f |", ours[packet, n], others[packet, n], ours[packet, n] / others[packet, n])
    printf "| %s | %d |%s%s |\n", packet, bytes, cells, row == 3 ? " " others[packet, 3] : ""
}

# What the longer packet counts more than the shorter one, for each of the parts that it has more.
function more(what, short, long, parts,    n, cells) {
    for (n = 1; n <= 2; n++) cells = cells each(ours[long, n] - ours[short, n], parts) each(others[long, n] - others[short, n], parts)
    if ((long, 3) in others) cells = cells each(others[long, 3] - others[short, 3], parts)
    else cells = cells " |"
    print "| " what " |" cells
}

# Less than nothing is what an allocator chances to spare.
function each(count, parts) { return sprintf(" %.1f |", count < 0 ? 0 : count / parts) }
