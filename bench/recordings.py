#!/usr/bin/env python3
"""Makes the recordings that `recordings.sh` measures: classic packet captures of raw IPv4, as
tcpdump writes them, of one session between 192.0.2.1 (port 179, AS 65001) and 192.0.2.2 (AS 65002).

    recordings.py updates COUNT     the peer announces so many prefixes, in an UPDATE each
    recordings.py extended COUNT    the same, and both OPENs offer extended messages
    recordings.py octets COUNT      as `updates`, until the recording has so many octets
    recordings.py lost COUNT        the same, and the first packet of UPDATEs isn't in it
    recordings.py others COUNT      one UPDATE, after so many octets of other hosts' packets
    recordings.py both COUNT RATE   both announce so many prefixes, in an UPDATE each and so many in
                                    a second; then the local system sends an OPEN again
    recordings.py each COUNT RATE   the same, and the peer sends an OPEN again, too
    recordings.py turns COUNT       both announce so many prefixes, in an UPDATE each and by turns, one
                                    of either in a second: so no two of one direction follow each other

It is written to standard output."""
import struct
import sys

LOCAL, PEER = bytes.fromhex('c0000201'), bytes.fromhex('c0000202')
PORTS = {LOCAL: 179, PEER: 40000}
FIN, SYN, ACK = 1, 2, 16
# What a segment has at the most: an Ethernet frame's 1500 octets, less both headers and a timestamp.
ROOM = 1448

# Who sends an OPEN again, of the recordings that have UPDATEs of both systems.
ENDS = {'both': (LOCAL,), 'each': (LOCAL, PEER), 'turns': ()}

write = sys.stdout.buffer.write


def message(kind, body=b''):
    return b'\xff' * 16 + struct.pack('>HB', 19 + len(body), kind) + body


def open_message(number, identifier, extended):
    """An OPEN of both families and of a four-octet AS number, and of extended messages or not."""
    capabilities = bytes.fromhex('0104000100010104000200014104') + struct.pack('>I', number)
    if extended:
        capabilities += bytes.fromhex('0600')
    parameters = struct.pack('>BB', 2, len(capabilities)) + capabilities
    body = struct.pack('>BHH', 4, number, 90) + identifier + bytes([len(parameters)]) + parameters
    return message(1, body)


def update(index, number=65002, hop=PEER):
    """An UPDATE that announces the prefix of this number, of 24 bits and of 10.0.0.0/8 on."""
    attributes = (bytes.fromhex('400101004002060201') + struct.pack('>I', number)
                  + bytes.fromhex('400304') + hop)
    prefix = struct.pack('>I', (10 << 16) + index)[1:]
    return message(2, struct.pack('>HH', 0, len(attributes)) + attributes + b'\x18' + prefix)


def packet(second, source, target, ports, sequence, acknowledged, flags, octets=b''):
    """One packet of a file: its header, and an IPv4 datagram with a TCP segment."""
    count = 40 + len(octets)
    ip = struct.pack('>BBHHHBBH', 0x45, 0, count, 0, 0x4000, 64, 6, 0) + source + target
    tcp = struct.pack('>HHIIBBHHH', *ports, sequence & 0xffffffff, acknowledged & 0xffffffff, 0x50,
                      flags, 0xffff, 0, 0)
    return struct.pack('<IIII', second, 0, count, count) + ip + tcp + octets


class Session:
    """Both systems' sequence numbers: the next one of each."""

    def __init__(self):
        self.next = {LOCAL: 5000, PEER: 1000}
        self.second = 100
        self.count = 0
        self.sends(PEER, SYN)
        self.sends(LOCAL, SYN | ACK)

    def sends(self, source, flags, octets=b'', lost=False):
        target = PEER if source is LOCAL else LOCAL
        acknowledged = self.next[target] if flags & ACK else 0
        made = packet(self.second, source, target, (PORTS[source], PORTS[target]),
                      self.next[source], acknowledged, flags, octets)
        self.next[source] += len(octets) + (1 if flags & (SYN | FIN) else 0)
        if not lost:
            self.count += len(made)
            write(made)

    def begins(self, extended):
        self.sends(PEER, ACK, open_message(65002, PEER, extended))
        self.sends(LOCAL, ACK, open_message(65001, LOCAL, extended) + message(4))
        self.sends(PEER, ACK, message(4))

    def hears(self, octets, lost=False):
        """Octets of the peer, acknowledged with every second segment. The first may be lost."""
        for index, at in enumerate(range(0, len(octets), ROOM)):
            self.sends(PEER, ACK, octets[at:at + ROOM], lost and index == 0)
            if index % 2:
                self.sends(LOCAL, ACK)
        self.sends(LOCAL, ACK)


def both(count, rate, ends):
    """UPDATEs of both systems, and an OPEN of these that they can't send in Established."""
    session = Session()
    session.begins(False)
    for first in range(0, count, rate):
        session.second += 1
        several = range(first, min(first + rate, count))
        for source, number in ((PEER, 65002), (LOCAL, 65001)):
            octets = b''.join(update(index, number, source) for index in several)
            for at in range(0, len(octets), ROOM):
                session.sends(source, ACK, octets[at:at + ROOM])
    for source in ends:
        number = 65001 if source == LOCAL else 65002
        session.sends(source, ACK, open_message(number, source, False))


def others(octets):
    """Packets between two other hosts, and of the session's hosts on another port."""
    made = []
    for index in range(16):
        source, target = (LOCAL, PEER) if index % 4 == 3 else (b'\xc6\x33\x64\x07', PEER)
        made.append(packet(100, source, target, (443, 50000), 7000 + index, 1, ACK,
                           bytes([index]) * ROOM))
    block = b''.join(made)
    for _ in range(octets // len(block)):
        write(block)


def main(kind, count, rate=1):
    write(struct.pack('<IHHiIII', 0xa1b2c3d4, 2, 4, 0, 0, 262144, 101))
    if kind in ENDS:
        both(count, rate, ENDS[kind])
        return
    if kind == 'others':
        others(count)
        count = 1
    session = Session()
    session.begins(kind == 'extended')
    index = 0
    by_octets = kind in ('octets', 'lost')
    while (session.count if by_octets else index) < count:
        # Some 10,000 octets at a time, a second after those before.
        several = range(index, index + 200 if by_octets else min(index + 200, count))
        session.second += 1
        session.hears(b''.join(update(at % 65536 * 4 + at // 65536) for at in several),
                      kind == 'lost' and index == 0)
        index += len(several)


if __name__ == '__main__':
    main(sys.argv[1], *map(int, sys.argv[2:]))
