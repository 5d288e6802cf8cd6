"""In what two runs differ, line by line."""


def output_lines(output):
    """An output in lines: of each packet its moment, the length that it had and its octets, sixteen a line."""
    if output is None:
        return ["no file"]
    lines, at, number = [f"header {output[:24].hex()}"], 24, 0
    while at < len(output):
        number += 1
        second, nanosecond, kept, length = (int.from_bytes(output[at + i:at + i + 4], "little") for i in (0, 4, 8, 12))
        packet = output[at + 16:at + 16 + kept]
        lines.append(f"packet {number} at {second}.{nanosecond:09}, {length} octets")
        lines += [f"packet {number}, octet {i}: {packet[i:i + 16].hex()}" for i in range(0, len(packet), 16)]
        at += 16 + kept
    return lines


def difference(place, wanted, got):
    """The first line in which two lists of lines differ."""
    longest = max(len(wanted), len(got))
    wanted, got = (lines + ["nothing"] * (longest - len(lines)) for lines in (wanted, got))
    number = next((i for i in range(longest) if wanted[i] != got[i]), None)
    if number is None:
        return ""
    return f"  {place}, line {number + 1}\n    wanted {wanted[number]}\n    got    {got[number]}\n"
