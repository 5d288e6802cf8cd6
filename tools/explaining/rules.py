"""Which rule settles a frame of each verdict, and where the standards have it."""
ROUTER = "this router's choice"
# By the words of a verdict: of a drop its number, of a message its second word.
RULES = {
    "own": ("the source is an own locator: the router sent the packet itself", ROUTER),
    "local": ("the destination is in an EID prefix of the site, so the packet needs no tunnel", "RFC 9300, section 6"),
    "encapsulated": ("the longest mapping of the map-cache that covers the destination has a locator that can be used, so "
                     "the ITR encapsulates the packet", "RFC 9300, sections 5.3 and 6"),
    "delivered": ("the ETR decapsulates the packet: its destination is an EID of the site",
                  "RFC 9300, sections 4.2 and 5.3"),
    "native": ("the mapping has no locators and ACT 1, Natively-Forward", "RFC 9301, section 5.4"),
    "control reply": ("the nonce of the Map-Reply is that of a Map-Request that is outstanding, and a record covers its "
                      "EID", "RFC 9301, section 5.3"),
    "control request": ("the ETR answers a Map-Request for its EID prefixes", "RFC 9301, section 5.5"),
    "control solicit": ("an SMR, a Map-Request with S: the mappings that it names are asked for again",
                        "RFC 9301, section 6.1"),
    "control probe-reply": ("the locator that was probed answers with the probe's nonce", "RFC 9301, section 7.1"),
    "1": ("a rule of its form refuses the frame", "see the field"),
    "2": ("the packet is to an own locator, and neither to UDP port 4341 nor of port 4342",
          "RFC 9300, section 5.3; RFC 9301, section 5"),
    "3": ("a tunnel packet that was fragmented on its way isn't reassembled", "RFC 9300, section 7.1: left out"),
    "4": ("KK isn't 0: the packet inside is encrypted, and there are no ciphers here", "RFC 9300, section 5.3; RFC 8061"),
    "5": ("no EID prefix of the site covers what is asked for or sent to", "RFC 9300, section 4.2; RFC 9301, section 5.5"),
    "6": ("the destination Map-Version is newer than that of the site's prefix", "RFC 9302, section 7.1"),
    "7": ("the source Map-Version is older than that of the mapping of the source", "RFC 9302, section 7.2"),
    "8": ("Not-ECT inside and CE outside: the packet must be dropped", "RFC 6040, section 4.2"),
    "9": ("the hops of the packet are used up", "RFC 791, section 3.2; RFC 8200, section 3; RFC 9300, section 5.3"),
    "10": ("the VLAN of the frame has no instance", f"RFC 9300, section 8: {ROUTER}"),
    "11": ("the destination is a group, for which no mapping is", "RFC 9300, section 14: left out"),
    "12": ("the source is no EID of the site", f"RFC 9300, section 4.2: {ROUTER}"),
    "13": ("no mapping of the map-cache covers the destination, and the packet isn't kept until one comes",
           "RFC 9300, section 6"),
    "14": ("the mapping has no locators and ACT 0, No-Action", "RFC 9301, section 5.4"),
    "15": ("the mapping has no locators and ACT 2, Send-Map-Request", "RFC 9301, section 5.4"),
    "16": ("the mapping has no locators and ACT 3, Drop/No-Reason, or 6 or 7, which aren't assigned",
           "RFC 9301, section 5.4"),
    "17": ("the mapping has no locators and ACT 4, Drop/Policy-Denied", "RFC 9301, section 5.4"),
    "18": ("the mapping has no locators and ACT 5, Drop/Auth-Failure", "RFC 9301, section 5.4"),
    "19": ("none of the mapping's locators can be used", "RFC 9300, sections 9 and 10; RFC 9301, sections 5.4 and 7.1"),
    "20": ("the tunnel packet would have more than 1,500 octets", "RFC 9300, section 7.1"),
    "21": ("the nonce of the Map-Reply is of no Map-Request or probe that is outstanding", "RFC 9301, sections 5.3 and 7.1"),
    "22": ("no record of the Map-Reply covers the EID that was asked for", "RFC 9301, section 5.5"),
    "23": ("a probe is answered from another address than the locator that was probed", f"RFC 9301, section 7.1: {ROUTER}"),
    "24": ("no ITR-RLOC of the Map-Request can be reached", "RFC 9301, section 5.5"),
    "25": ("only Map-Requests are encapsulated, and this is a Map-Reply", "RFC 9301, section 5.8"),
}
# The field at which a rule of a frame's form fails, how many octets it has, and where the standards have it.
FIELDS = {
    ("link", "short"): ("the Ethernet header", 14, "IEEE 802.3"),
    ("link", "ethertype"): ("the EtherType, which is neither 08 00 (IPv4) nor 86 dd (IPv6)", 2, "IEEE 802.3"),
    ("ip", "short"): ("the IP header", 20, "RFC 791, section 3.1; RFC 8200, section 3"),
    ("ip", "version"): ("the Version, the first four bits, which is neither 4 nor 6", 1, "RFC 791, section 3.1"),
    ("ip", "header-length"): ("the IHL, the last four bits, which is less than 5", 1, "RFC 791, section 3.1"),
    ("ip", "total-length"): ("the Total Length (IPv4) or Payload Length (IPv6), which the frame's octets don't have, or "
                             "which is less than the header", 2, "RFC 791, section 3.1; RFC 8200, section 3"),
    ("ip", "checksum"): ("the Header Checksum, which is wrong", 2, "RFC 791, section 3.1"),
    ("udp", "short"): ("the UDP header", 8, "RFC 768"),
    ("udp", "udp-length"): ("the Length, which is less than 8 or more than the packet has", 2, "RFC 768"),
    ("udp", "udp-checksum"): ("the Checksum, which is wrong, or 0 where it must be set", 2,
                              "RFC 768; RFC 9300, section 5.3; RFC 9301, section 5"),
    ("lisp", "short"): ("the LISP header", 8, "RFC 9300, section 5.1"),
    ("message", "short"): ("a field of the message that needs more octets than are left", 8, "RFC 9301, section 5"),
    ("message", "message-type"): ("the Type, the first four bits, which is neither 1 (Map-Request), 2 (Map-Reply) nor 8 "
                                  "(Encapsulated Control Message)", 1, "RFC 9301, section 5.1"),
    ("message", "authenticated"): ("the S bit, by which LISP-SEC data follow", 1,
                                   "RFC 9301, sections 5.4 and 5.8; RFC 9303"),
    ("message", "afi"): ("the AFI, which isn't one that is read here: 1 (IPv4), 2 (IPv6), of an EID also 16387 (LCAF)", 2,
                         "RFC 9301, section 5; RFC 8060, section 3"),
    ("message", "lcaf-type"): ("the LCAF type, which isn't 2 (Instance ID)", 1, "RFC 8060, section 4.1"),
    ("message", "lcaf-length"): ("the LCAF length, which doesn't fit its address", 2, "RFC 8060, section 4.1"),
    ("message", "instance-too-large"): ("the Instance ID, which has more than the 24 bits of a LISP header", 4,
                                        "RFC 8060, section 4.1; RFC 9300, section 5.3"),
    ("message", "mask-length"): ("the EID mask-len, which is more than the address has bits", 1, "RFC 9301, section 5.4"),
    ("message", "inner-protocol"): ("the packet inside, which is no UDP or a fragment", 1, "RFC 9301, section 5.8"),
    ("message", "inner-port"): ("the inner UDP destination port, which isn't 4342", 2, "RFC 9301, section 5.8"),
}


def key_of(verdict):
    """By which words a verdict has its rule."""
    words = verdict.split(" ")
    if words[0] == "drop":
        return words[1]
    return " ".join(words[:2]) if words[0] == "control" else words[0]


def rule_text(verdict):
    """The rule that settles a verdict, with its section."""
    sentence, section = RULES[key_of(verdict)]
    return f"{sentence} ({section})"
