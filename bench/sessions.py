#!/usr/bin/env python3
"""Makes the captures that `judge.sh` and `explain.sh` measure: MRT records of one session, of AS
65001 at 192.0.2.1 with its peer, AS 65002 at 192.0.2.2. The peer sends its table, in the order of
addresses, and then some groups of prefixes again and again, with other paths or withdrawn.

    sessions.py PREFIXES FURTHER            so many prefixes, and so many records after them: none
                                            where there is no prefix
    sessions.py PREFIXES FURTHER ended      the same, and the peer ends the session
    sessions.py PREFIXES FURTHER several    the same, and two UPDATEs by which it has four ends

It is written to standard output, the same octets in each run."""
import struct
import sys

PEER = bytes.fromhex('c0000202')
# A record's body begins with both AS numbers, interface 0, IPv4 and both addresses (RFC 6396, 4.4).
ENDS = struct.pack('>IIHH', 65002, 65001, 0, 1) + PEER + bytes.fromhex('c0000201')
CHANGE, RECEIVED, SENT = 5, 4, 7
# 2023-11-14 22:13:20 UTC.
FIRST_SECOND = 1_700_000_000
IGP, INCOMPLETE = 0, 2

write = sys.stdout.buffer.write


def message(kind, body=b''):
    return b'\xff' * 16 + struct.pack('>HB', 19 + len(body), kind) + body


def open_message(number, identifier):
    """An OPEN of both families and of a four-octet AS number."""
    capabilities = bytes.fromhex('010400010001' '010400020001' '4104') + struct.pack('>I', number)
    parameters = struct.pack('>BB', 2, len(capabilities)) + capabilities
    body = struct.pack('>BHH', 4, number, 90) + identifier + bytes([len(parameters)]) + parameters
    return message(1, body)


def update(withdrawn, attributes=b'', announced=b''):
    sizes = struct.pack('>H', len(withdrawn)), struct.pack('>H', len(attributes))
    return message(2, sizes[0] + withdrawn + sizes[1] + attributes + announced)


KEEPALIVE = message(4)
SHUTDOWN = message(3, b'\x06\x02')
# Two UPDATEs with MP_REACH_NLRI whose Transitive bit is set: of 2001:db8::/32, and of 10.0.0.0/8.
BEGINNING = bytes.fromhex('40010100' '400206' '0201' '0000fdea')
FOR_IPV6 = update(b'', BEGINNING + bytes.fromhex(
    'c00e1a' '000201' '10' '20010db8000000000000000000000002' '00' '20' '20010db8'))
FOR_IPV4 = update(b'', BEGINNING + bytes.fromhex('c00e0b' '000101' '04' 'c0000202' '00' '08' '0a'))


class Chance:
    """Numbers by chance, the same in each run: PCG-XSH-RR with 64 bits of state."""

    def __init__(self):
        self.step = 54 << 1 | 1
        self.state = 42 + self.step
        self.below(1)

    def below(self, count):
        """A number below this one, made of 32 bits of the present state; then the state goes on."""
        state = self.state
        self.state = (state * 6364136223846793005 + self.step) & (1 << 64) - 1
        bits = ((state >> 18 ^ state) >> 27) & 0xffffffff
        turn = state >> 59
        return ((bits >> turn | bits << 32 - turn) & 0xffffffff) % count


class Peer:
    """What the peer has announced, in groups of prefixes that share a path."""

    # How many bits a prefix has: 24 of six in ten, as in a table of the Internet.
    LENGTHS = [24] * 62 + [23] * 11 + [22] * 12 + [21] * 5 + [20] * 5 + [19] * 4 + [16]

    def __init__(self):
        self.chance = Chance()
        # The first address that no prefix has yet.
        self.next = 1 << 24
        self.groups = []
        # The group that is withdrawn: one at the most, so that the table stays as large as it is.
        self.withdrawn = None

    def prefix(self):
        length = self.LENGTHS[self.chance.below(100)]
        hosts = (1 << 32 - length) - 1
        first = (self.next + hosts) & ~hosts
        self.next = first + hosts + 1
        if self.next > 224 << 24:
            sys.exit('sessions.py: IPv4 has no room for so many prefixes')
        return bytes([length]) + first.to_bytes(4, 'big')[:(length + 7) // 8]

    def path(self):
        """Path attributes: ORIGIN, AS_PATH, NEXT_HOP, of one in eight MULTI_EXIT_DISC, of one in
        four COMMUNITIES."""
        below = self.chance.below
        numbers = [65002] + [below(400_000) + 1000 for _ in range(below(5) + 1)]
        communities = []
        if below(4) == 0:
            communities = [65002 << 16 | below(1 << 16) for _ in range(below(4) + 1)]
        origin = INCOMPLETE if below(8) == 0 else IGP
        has_metric, metric = below(8) == 0, below(1000)
        size = len(numbers)
        octets = struct.pack(f'>BBBB BBBBB{size}I BBB4s', 0x40, 1, 1, origin,
                             0x40, 2, 2 + 4 * size, 2, size, *numbers, 0x40, 3, 4, PEER)
        if has_metric:
            octets += struct.pack('>BBBI', 0x80, 4, 4, metric)
        if communities:
            size = len(communities)
            octets += struct.pack(f'>BBB{size}I', 0xc0, 8, 4 * size, *communities)
        return octets

    def add_group(self, most):
        """The UPDATE that announces a group more, of one to eight prefixes and at most so many, and
        how many it has."""
        count = min(self.chance.below(8) + 1, most)
        group = b''.join(self.prefix() for _ in range(count))
        self.groups.append(group)
        return update(b'', self.path(), group), count

    def changing(self):
        """The group that changes: once in four times the one that is withdrawn, if there is one.
        Otherwise nine times in ten one of every tenth group, so that they lie all over the table:
        in real feeds, too, few prefixes make most UPDATEs."""
        place = self.chance.below(len(self.groups))
        is_any = self.chance.below(10) == 0
        returns = self.chance.below(4) == 0
        if returns and self.withdrawn is not None:
            return self.withdrawn
        return place if is_any else place - place % 10

    def change_group(self):
        """The UPDATE that changes a group: it is withdrawn, once in four times and only while none
        is, or announced by another path."""
        place = self.changing()
        withdraws = self.chance.below(4) == 0 and self.withdrawn is None
        path = self.path()
        if withdraws:
            self.withdrawn = place
            return update(self.groups[place])
        if self.withdrawn == place:
            self.withdrawn = None
        return update(b'', path, self.groups[place])


class Session:
    """The records, and the second in which they are."""

    def __init__(self):
        self.second = FIRST_SECOND

    def record(self, kind, content):
        body = ENDS + content
        write(struct.pack('>IHHI', self.second, 16, kind, len(body)) + body)

    def change(self, before, after):
        self.record(CHANGE, struct.pack('>HH', before, after))

    def open(self):
        """Up to Established (RFC 4271, 8.2.2)."""
        self.change(1, 2)
        self.record(SENT, open_message(65001, bytes.fromhex('c0000201')))
        self.change(2, 4)
        self.record(RECEIVED, open_message(65002, PEER))
        self.record(SENT, KEEPALIVE)
        self.change(4, 5)
        self.record(RECEIVED, KEEPALIVE)
        self.change(5, 6)

    def send_table(self, peer, prefixes):
        """Some 8,000 UPDATEs a second."""
        while prefixes:
            octets, count = peer.add_group(prefixes)
            self.record(RECEIVED, octets)
            prefixes -= count
            if len(peer.groups) % 8192 == 0:
                self.second += 1

    def go_on(self, peer, further):
        """An UPDATE a second, and a KEEPALIVE of each end where 30 seconds are over, a third of the
        Hold Time of 90 (RFC 4271, 4.4)."""
        for number in range(further):
            if number % 32 == 30:
                self.record(SENT, KEEPALIVE)
            elif number % 32 == 31:
                self.record(RECEIVED, KEEPALIVE)
            else:
                self.second += 1
                self.record(RECEIVED, peer.change_group())

    def end(self, ending):
        if ending == 'ended':
            self.record(RECEIVED, SHUTDOWN)
            self.change(6, 1)
        elif ending == 'several':
            self.record(RECEIVED, FOR_IPV6)
            self.record(RECEIVED, FOR_IPV4)


def main(prefixes, further, ending=None):
    session, peer = Session(), Peer()
    session.open()
    session.send_table(peer, prefixes)
    session.go_on(peer, further)
    session.end(ending)


if __name__ == '__main__':
    words = sys.argv[1:]
    if (len(words) not in (2, 3) or words[2:] not in ([], ['ended'], ['several'])
            or not all(word.isdecimal() for word in words[:2])
            or int(words[0]) == 0 != int(words[1])):
        sys.exit(__doc__)
    main(int(words[0]), int(words[1]), *words[2:])
