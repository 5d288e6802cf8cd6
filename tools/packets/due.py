"""The packets that were due: those of a replay by the proved program, read as it writes them."""
import ipaddress
import os
import re
import subprocess
import tempfile
import tomllib

from blocks import Fault, packets_of
from layers import packet_in
from partners import Sent

MOST_NONCES = 4096


class Replay:
    """A replay that goes on while its packets are read: of the words behind --settings, into a pipe. Its report stays
    in a file without a name."""

    def __init__(self, program, words):
        reading, writing = os.pipe()
        self.report = tempfile.TemporaryFile()
        words = [program, "replay", *words, "--out", f"/dev/fd/{writing}"]
        try:
            self.process = subprocess.Popen(words, stdin=subprocess.DEVNULL, stdout=self.report, pass_fds=(writing,))
        except OSError as error:
            os.close(reading)
            raise Fault(f"{program} can't be run: {error.strerror}") from None
        finally:
            os.close(writing)
        self.file = os.fdopen(reading, "rb", 1 << 16)

    def packets(self):
        """The packets that it writes; none where it refuses its settings."""
        if self.file.peek(1):
            yield from numbered(packets_of(self.file), [])

    def end(self):
        """Waits for its end: its status, and the last line of its report."""
        self.file.close()
        status = self.process.wait()
        self.report.seek(max(0, self.report.seek(0, os.SEEK_END) - 4096))
        lines = self.report.read().decode(errors="replace").splitlines()
        return status, lines[-1] if lines else ""

    def frames_at(self, moments):
        """The frames of the capture that have one of these moments, in nanoseconds."""
        wanted = {f"{moment // 10**9}.{moment % 10**9:09}": moment for moment in moments}
        found = {}
        self.report.seek(0)
        for line in self.report:
            number, _, rest = line.partition(b" ")
            moment = wanted.get(rest[:rest.find(b" ")].decode())
            if moment is not None and number.isdigit():
                found.setdefault(moment, []).append(int(number))
        return found


def numbered(packets, passed):
    """The IP packets of a capture with the numbers of their records. The numbers of other records go into a list."""
    latest = 0
    for number, packet in enumerate(packets, 1):
        found = packet_in(packet.link, packet.octets)
        latest = max(latest, packet.moment)
        if found is None:
            passed.append(number)
        else:
            yield Sent(number, latest, found[1])


# Nonces that another router drew.


def own_addresses(top):
    return {str(ipaddress.ip_address(table["address"])) for table in top.get("locator", [])}


def lifted(top, path):
    """The nonces of the router's own Map-Requests in a capture, each at its first place."""
    own, nonces = own_addresses(top), {}
    with open(path, "rb") as file:
        for packet in numbered(packets_of(file), []):
            fields = packet.read().fields
            if "request.nonce" in fields and fields["ip.src"] in own:
                nonces.setdefault(fields["request.nonce"])
            if len(nonces) == MOST_NONCES:
                break
    return list(nonces)


def with_nonces(text, nonces):
    """A settings file with other nonces in the place of its own."""
    listed = "nonces = [" + ", ".join(f'"{nonce}"' for nonce in nonces) + "]\n"
    top = tomllib.loads(text)
    rest = re.sub(r"^[ \t]*nonces[ \t]*=[^\]]*\][^\n]*\n?", "", text, count=1, flags=re.MULTILINE)
    made = listed + rest
    if tomllib.loads(made) != top | {"nonces": nonces}:
        raise Fault("its `nonces` can't be replaced: write them as one list, without comments that have a bracket")
    return made
