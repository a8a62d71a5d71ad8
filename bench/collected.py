#!/usr/bin/env python3
"""Makes what `collectors.py` measures of a raw stream of messages, as a collector receives them: a
session in which AS 65002 at 192.0.2.2 sends the stream's UPDATEs and KEEPALIVEs to AS 65001 at
192.0.2.1, again and again, until it has sent so many octets.

    collected.py stream FILE OCTETS     these messages alone
    collected.py capture FILE OCTETS    the session as MRT records; the peer ends it
    collected.py recording FILE OCTETS  the session as packets; it goes on
    collected.py communities COUNT      MRT records of a session of so many UPDATEs of 65535 octets,
                                        with as many different large communities as they have room
                                        for; the peer ends it
    collected.py equal COUNT            the same, and all large communities of an UPDATE are equal

It is written to standard output."""
import struct
import sys

import recordings
import sessions

write = sys.stdout.buffer.write
UPDATE, KEEPALIVE = 2, 4
# As many octets of the stream as stand in one second.
IN_A_SECOND = 10_000
MOST_OCTETS = 65535


def messages(file):
    """The UPDATEs and KEEPALIVEs of a raw stream."""
    with open(file, 'rb') as stream:
        octets = stream.read()
    at = 0
    while at < len(octets):
        size = int.from_bytes(octets[at + 16:at + 18], 'big')
        if octets[at + 18] in (UPDATE, KEEPALIVE):
            yield octets[at:at + size]
        at += size


def repeated(file, octets):
    """These messages again and again, until there are so many octets, in blocks of a second."""
    block = []
    made = size = 0
    while made < octets:
        for message in messages(file):
            block.append(message)
            size += len(message)
            made += len(message)
            if size >= IN_A_SECOND:
                yield block
                block, size = [], 0
    yield block


def capture(blocks, extended=False):
    session = sessions.Session()
    session.change(1, 2)
    session.record(sessions.SENT, recordings.open_message(65001, recordings.LOCAL, extended))
    session.change(2, 4)
    session.record(sessions.RECEIVED, recordings.open_message(65002, recordings.PEER, extended))
    session.record(sessions.SENT, sessions.KEEPALIVE)
    session.change(4, 5)
    session.record(sessions.RECEIVED, sessions.KEEPALIVE)
    session.change(5, 6)
    for block in blocks:
        session.second += 1
        for message in block:
            session.record(sessions.RECEIVED, message)
    session.end('ended')


def recording(blocks):
    write(struct.pack('<IHHiIII', 0xa1b2c3d4, 2, 4, 0, 0, 262144, 101))
    session = recordings.Session()
    session.begins(False)
    for block in blocks:
        session.second += 1
        session.hears(b''.join(block))


def communities(count, different):
    """UPDATEs that announce a prefix with as many large communities as there is room for."""
    needed = (bytes.fromhex('400101004002060201') + struct.pack('>I', 65002)
              + bytes.fromhex('400304') + recordings.PEER)
    prefix = bytes([24, 10, 0])
    many = (MOST_OCTETS - 23 - len(needed) - 4 - len(prefix) - 1) // 12
    for number in range(count):
        values = b''.join(struct.pack('>III', 65002, number, at if different else 0)
                          for at in range(many))
        attributes = needed + struct.pack('>BBH', 0xd0, 32, len(values)) + values
        yield [sessions.message(UPDATE, struct.pack('>HH', 0, len(attributes)) + attributes
                                + prefix + bytes([number % 256]))]


def main(kind, first, octets='0'):
    if kind == 'stream':
        for block in repeated(first, int(octets)):
            write(b''.join(block))
    elif kind == 'capture':
        capture(repeated(first, int(octets)))
    elif kind == 'recording':
        recording(repeated(first, int(octets)))
    elif kind in ('communities', 'equal'):
        capture(communities(int(first), kind == 'communities'), True)
    else:
        sys.exit(__doc__)


if __name__ == '__main__':
    if len(sys.argv) not in (3, 4):
        sys.exit(__doc__)
    main(*sys.argv[1:])
