"""The peers of `bench/hostile.py`: what each does with a connection of `bgp speak`.

A peer is a function of a `Link` and of how many megabytes are sent where it floods. The first line
of its text says what it does, its name stands in the table.
"""
import random
import socket
import struct
import threading
import time
from collections.abc import Callable
from dataclasses import dataclass

MEGABYTE = 1_000_000


def frame(kind, body=b''):
    """A message (RFC 4271, 4.1)."""
    return b'\xff' * 16 + struct.pack('>HB', 19 + len(body), kind) + body


def open_message(hold=90):
    """The OPEN of AS 65002, with both families and AS numbers of four octets."""
    caps = bytes.fromhex('010400010001' '010400020001' '41040000fdea')
    return frame(1, struct.pack('>BHH', 4, 65002, hold) + bytes((192, 0, 2, 2, len(caps) + 2, 2,
                                                                 len(caps))) + caps)


def announcing(nlri):
    """An UPDATE that announces prefixes with the next hop 192.0.2.2 and the path 65002."""
    return frame(2, bytes.fromhex('0000' '0014' '40010100' '4002060201' '0000fdea'
                                  '400304c0000202') + nlri)


KEEPALIVE = frame(4)
ANNOUNCE = announcing(bytes.fromhex('100a02'))
WITHDRAW = frame(2, bytes.fromhex('0003' '100a02' '0000'))


class Link:
    """The peer's end of a connection. What comes is counted, if anything reads it."""

    def __init__(self, sock, reads):
        self.sock, self.got = sock, 0
        self.gone = threading.Event()
        self.reader = threading.Thread(target=self.read, daemon=True)
        if reads:
            self.reader.start()

    def read(self):
        try:
            while octets := self.sock.recv(65536):
                self.got += len(octets)
        except OSError:
            pass
        self.gone.set()

    def send(self, octets):
        """Sends octets; answers whether they could be sent."""
        try:
            self.sock.sendall(octets)
            return True
        except OSError:
            return False

    def opens(self, hold=90):
        """Takes the session to Established."""
        return self.send(open_message(hold) + KEEPALIVE)

    def waits(self, seconds=1000):
        """Waits until the other end is gone, for so long at most."""
        return self.gone.wait(seconds)

    def floods(self, octets, megabytes):
        """Sends the same octets over and over, then no more, and waits for the other end."""
        piece = octets * (MEGABYTE // len(octets))
        if all(self.send(piece) for _ in range(megabytes)):
            self.ends()
        self.waits()

    def ends(self):
        """Sends no more: closes this half of the connection."""
        try:
            self.sock.shutdown(socket.SHUT_WR)
        except OSError:
            pass

    def resets(self):
        """Closes so that the other end gets a reset."""
        self.sock.setsockopt(socket.SOL_SOCKET, socket.SO_LINGER, struct.pack('ii', 1, 0))
        self.close()

    def close(self):
        """Closes the connection; a reader that still waits holds it, and so is sent away first."""
        try:
            self.sock.shutdown(socket.SHUT_RD)
        except OSError:
            pass
        if self.reader.ident:
            self.reader.join(5)
        self.sock.close()


PEERS = []


@dataclass
class Peer:
    """A peer: its name and what it does, which way is gone, how many turns and which further
    options `bgp speak` is given, whether the peer reads what it is sent, and whether it takes so
    long that it is met only where it is asked for."""

    name: str
    acts: Callable
    side: str
    turns: int
    more: tuple
    reads: bool
    is_long: bool


def peer(turns, *more, sides=('connect',), reads=True, is_long=False):
    """Makes a function a peer, or one for each way."""
    def made(acts):
        name = acts.__name__.replace('_', ' ')
        PEERS.extend(Peer(name, acts, side, turns, more, reads, is_long) for side in sides)
        return acts
    return made


@peer(20)
def is_not_there(link, megabytes):
    """Nothing listens at the port."""


@peer(20, sides=('connect', 'listen'))
def closes_at_once(link, megabytes):
    """Closes the connection as soon as it stands."""


@peer(20, sides=('connect', 'listen'))
def resets_at_once(link, megabytes):
    """Resets it as soon as it stands."""
    link.resets()


@peer(20, sides=('connect', 'listen'))
def stalls(link, megabytes):
    """Never sends an octet."""
    link.waits()


@peer(20, '--hold', '9')
def stalls_after_its_OPEN(link, megabytes):
    """Sends its OPEN and nothing more."""
    link.send(open_message())
    link.waits()


@peer(20, '--hold', '9')
def stalls_in_Established(link, megabytes):
    """Opens the session and sends nothing more."""
    link.opens()
    link.waits()


@peer(20, '--hold', '9')
def uses_most_of_its_Hold_Time(link, megabytes):
    """Opens the session late in a second of the clock, and sends a KEEPALIVE each 8.5 seconds."""
    time.sleep((0.9 - time.time()) % 1)
    link.opens()
    while not link.waits(8.5) and link.send(KEEPALIVE):
        pass


def trickles(link, octets):
    """Sends octets, one each second."""
    for octet in octets:
        if link.waits(1) or not link.send(bytes([octet])):
            return


@peer(100)
def sends_an_octet_a_second(link, megabytes):
    """Sends an OPEN, and then KEEPALIVEs, an octet each second."""
    trickles(link, open_message() + KEEPALIVE * 20)


@peer(100, '--hold', '9')
def the_same_with_hold_9(link, megabytes):
    """The same; no message comes in time."""
    trickles(link, open_message() + KEEPALIVE * 20)


@peer(20)
def cuts_inside_its_OPEN(link, megabytes):
    """Sends 30 octets of its OPEN and closes."""
    link.send(open_message()[:30])
    time.sleep(2)


@peer(20)
def cuts_inside_an_UPDATE(link, megabytes):
    """Sends all but the last octet of an UPDATE and closes."""
    link.opens()
    link.send(ANNOUNCE[:-1])
    time.sleep(2)


@peer(20)
def cuts_inside_a_header(link, megabytes):
    """Sends 10 octets of a header and resets."""
    link.opens()
    link.send(KEEPALIVE[:10])
    time.sleep(2)
    link.resets()


@peer(20)
def closes_its_half(link, megabytes):
    """Opens the session, closes its half of the connection, and goes on reading."""
    link.opens()
    time.sleep(2)
    link.ends()
    link.waits()


@peer(20)
def says_nothing_but_KEEPALIVEs(link, megabytes):
    """Sends 1 MB of KEEPALIVEs in the place of an OPEN."""
    link.floods(KEEPALIVE, 1)


@peer(1_000_000, '--quiet')
def floods_KEEPALIVEs(link, megabytes):
    """Opens the session, sends 100 MB of KEEPALIVEs and closes."""
    link.opens()
    link.floods(KEEPALIVE, megabytes)


@peer(100)
def floods_over_100_turns(link, megabytes):
    """The same; the turns run out."""
    link.opens()
    link.floods(KEEPALIVE, megabytes)


@peer(1_000_000, '--quiet')
def floods_UPDATEs(link, megabytes):
    """Opens the session, sends 100 MB of UPDATEs that announce and withdraw a route and closes."""
    link.opens()
    link.floods(ANNOUNCE + WITHDRAW, megabytes)


@peer(260, '--quiet')
def announces_200000_routes(link, megabytes):
    """Opens the session, announces 200,000 prefixes in UPDATEs of 800, and sends nothing more."""
    link.opens()
    for first in range(0, 200_000, 800):
        link.send(announcing(b''.join(struct.pack('>BI', 32, (20 << 24) + at)
                                      for at in range(first, first + 800))))
    link.waits()


@peer(20, sides=('connect', 'listen'))
def sends_garbage(link, megabytes):
    """Sends 1 MB of random octets."""
    link.send(random.Random(1).randbytes(MEGABYTE))
    link.waits()


@peer(20)
def sends_garbage_in_Established(link, megabytes):
    """Opens the session and sends 1 MB of random octets."""
    link.opens()
    time.sleep(2)
    link.send(random.Random(2).randbytes(MEGABYTE))
    link.waits()


@peer(20)
def sends_a_message_too_long(link, megabytes):
    """Opens the session and sends a header whose Length is 65535, with all its octets."""
    link.opens()
    link.send(b'\xff' * 18 + b'\x02' + bytes(65516))
    link.waits()


@peer(20)
def sends_broken_UPDATEs(link, megabytes):
    """Opens the session and sends UPDATEs whose attributes are random octets."""
    link.opens()
    chance = random.Random(3)
    for _ in range(1000):
        junk = chance.randbytes(chance.randrange(40))
        link.send(frame(2, struct.pack('>HH', 0, len(junk)) + junk + b'\x10\x0a\x02'))
    link.waits()


def sends_alone(link):
    """Opens the session, sends a KEEPALIVE each second and reads nothing."""
    link.opens(3)
    while link.send(KEEPALIVE):
        time.sleep(1)


@peer(60, '--hold', '3', reads=False)
def never_reads(link, megabytes):
    """Opens the session, sends a KEEPALIVE each second and reads nothing."""
    sends_alone(link)


@peer(500, '--hold', '3', reads=False, is_long=True)
def never_reads_for_long(link, megabytes):
    """The same for 500 turns, in which what the system holds may fill up (see hostile.py)."""
    sends_alone(link)
