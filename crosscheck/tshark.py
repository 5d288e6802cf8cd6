"""What tshark reads of the messages and tunnel packets in a capture, and what all messages must keep to."""
import ipaddress
import subprocess
import sys

from captures import frames_of
from messages import message_of
from wire import Packet, Refused, number

HEADERS = ["frame.number", "_ws.malformed", "_ws.expert.severity", "ip.checksum.status", "udp.checksum.status",
           "ip.ttl", "ipv6.hlim", "lisp.type", "lisp.nonce", "lisp.records", "lisp.lcaf.iid", "lisp.lcaf.iid.ipv4",
           "lisp.lcaf.iid.ipv6", "data.len"]
RESERVED = ["lisp.lcaf.res1", "lisp.lcaf.flags", "lisp.lcaf.res2"]
GOOD, WARNING = "1", 0x400000


def fields_read(path, shown, fields, *options):
    """The fields of each frame that is shown, each a list of texts; the first field is the frame's number."""
    command = ["tshark", "-r", path, "-n", "-Y", shown, "-T", "fields", "-E", "separator=|", *options]
    for field in fields:
        command += ["-e", field]
    lines = subprocess.run(command, capture_output=True, text=True, check=True).stdout.splitlines()
    rows = [dict(zip(fields, (value.split(",") if value else [] for value in line.split("|")))) for line in lines]
    return {int(row["frame.number"][0]): row for row in rows}


def read_by_tshark(path, fields):
    """The fields of each frame that has a control message."""
    return fields_read(path, "udp.port == 4342", HEADERS + RESERVED + fields, "-d", "udp.port==0-4340,lisp",
                       "-o", "ip.check_checksum:TRUE", "-o", "udp.check_checksum:TRUE")


def kept(row, packets):
    """Whether each rule of so many packets, one in another, is kept."""
    return {
        "malformed": not row["_ws.malformed"],
        "warned of": all(int(value) < WARNING for value in row["_ws.expert.severity"]),
        "IP checksum": row["ip.checksum.status"] == [GOOD] * len(row["ip.ttl"]),
        "UDP checksum": row["udp.checksum.status"] == [GOOD] * packets,
        "packets": len(row["ip.ttl"]) + len(row["ipv6.hlim"]) == packets,
        "left over": not row["data.len"],
    }


def reserved(row, fields):
    return all(int(value, 0) == 0 for name in RESERVED + fields for value in row[name])


def addresses(row, field):
    return [ipaddress.ip_address(value).packed for value in row[field]]


def sent_messages(path, kind):
    """The number, packet and payload of each control message of a type that comes from port 4342."""
    for i, (_, _, octets) in enumerate(frames_of(path)):
        packet = Packet(octets, 0)
        payload = packet.octets[packet.at + 8:]
        from_control = packet.protocol == 17 and not packet.fragment and number(packet.octets, packet.at, 2) == 4342
        if from_control and payload[:1] and payload[0] >> 4 == kind and number(packet.octets, packet.at + 2, 2) != 4341:
            yield i + 1, packet, payload


def read_whole(payload):
    """The inner port and the message, where no octet is left over; or None."""
    try:
        port, message, left = message_of(payload, 0)
    except Refused:
        return None
    return None if left else (port, message)


def report(word, path, kind, fields, faults):
    """Tells the faults of each message of a type, and ends with status 1 where there is one."""
    rows, count, bad = read_by_tshark(path, fields), 0, 0
    for frame, packet, payload in sent_messages(path, kind):
        count += 1
        found = read_whole(payload)
        wrong = faults(rows[frame], packet, *found) if frame in rows and found else ["not read"]
        if wrong:
            bad += 1
            print(f"packet {frame}: {', '.join(wrong)}")
    print(f"{count} {word}, {bad} at fault")
    sys.exit(bad > 0)
