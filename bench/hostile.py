#!/usr/bin/env python3
"""Runs `bgp speak` against peers on 127.0.0.1 that mean it no good, and judges each capture.

usage: bench/hostile.py PROGRAM OUTDIR [--judge PROGRAM] [--jobs N] [--mb N] [--only WORD ..]

PROGRAM is the program `bgp`; --judge names another whose `judge` is asked. What each peer does
stands in bench/hostile_peers.py; --only picks them by words of their names, --mb says how much
those send that flood (100 MB). A row for each: whether `bgp speak` connected or listened, its exit
status, turns and wall seconds, its peak memory in KiB (VmHWM, looked at every 20 ms, so not told of
a run that is over at once), the octets of the messages that its capture has as sent, those that the
peer got, the verdict on the capture, and the last message in it. OUTDIR keeps the captures and what
was printed.

A peer that never reads ends a session once the system holds no more for it, which takes long with
the usual buffers; with small ones in a network namespace (as root) it takes some minutes:

  unshare --net sh -c 'ip link set lo up mtu 1500
    sysctl -w net.ipv4.tcp_wmem="4096 4096 4096" net.ipv4.tcp_rmem="4096 4096 4096"
    exec bench/hostile.py PROGRAM OUTDIR --only "for long"'

It needs Python alone. It is a trial and no part of the gate. Status 0 where each run ended by
itself with status 0, within its turns (a second each) and five seconds, and each capture is judged
yes; else 1.
"""
import argparse
import mmap
import os
import socket
import struct
import subprocess
import sys
import threading
import time
from concurrent.futures import ThreadPoolExecutor

sys.dont_write_bytecode = True
from hostile_peers import PEERS, Link, is_not_there   # noqa: E402
import talks   # noqa: E402

COLUMNS = {'peer': 30, 'speak': 8, 'status': 6, 'turns': 6, 'seconds': 7, 'KiB': 6, 'sent': 5,
           'got': 5, 'verdict': 10, 'last message': 25, 'well': 4}
WIDTHS = list(COLUMNS.values())
KINDS = {1: 'open', 2: 'update', 3: 'notification', 4: 'keepalive'}


def what_was_sent(path):
    """How many octets the messages have that a capture has as sent (RFC 6396, BGP4MP, subtype 7),
    and the last of all messages, as words."""
    sent, last = 0, '-'
    if not os.path.getsize(path):
        return sent, last
    with open(path, 'rb') as file, mmap.mmap(file.fileno(), 0, prot=mmap.PROT_READ) as octets:
        at, final = 0, None
        while at + 40 <= len(octets):
            subtype, length = struct.unpack_from('>HI', octets, at + 6)
            if subtype != 5:    # no change of state: after 12 octets of header, 20 of the session
                final = subtype, at + 32
                if subtype == 7:
                    sent += length - 20
            at += 12 + length
        if final:
            subtype, at = final
            last = ('sent ' if subtype == 7 else 'received ') + KINDS.get(octets[at + 18], 'other')
            if octets[at:at + 16] != b'\xff' * 16:
                last = 'received no header'
            elif octets[at + 18] == 3:
                last += f' {octets[at + 19]}/{octets[at + 20]}'
    return sent, last


def peak_of(process, limit):
    """Waits for the end of a process, a number of seconds at most; answers its peak in KiB."""
    peak, end = 0, time.monotonic() + limit
    while process.poll() is None and time.monotonic() < end:
        with open(f'/proc/{process.pid}/status') as status:
            peak = max([peak] + [int(line.split()[1]) for line in status if 'VmHWM' in line])
        time.sleep(0.02)
    if process.poll() is None:
        process.kill()
        process.wait()
    return peak


class Meeting:
    """A run of `bgp speak` with one of the peers."""

    def __init__(self, args, case):
        self.args, self.case, self.side = args, case, case.side
        self.base = os.path.join(args.outdir, f'{case.name}-{case.side}'.replace(' ', '-'))
        self.capture = self.base + '.mrt'
        self.listener = socket.create_server(('127.0.0.1', 0))
        self.port = self.listener.getsockname()[1]
        self.link = None
        if self.side == 'listen' or self.case.acts is is_not_there:
            self.listener.close()

    def start(self):
        """Starts `bgp speak`."""
        words = talks.speak(self.args.program, f'--{self.side}', self.port, self.case.turns,
                            self.capture, self.case.more)
        with open(self.base + '.out', 'w') as out, open(self.base + '.err', 'w') as err:
            return subprocess.Popen(words, stdin=subprocess.DEVNULL, stdout=out, stderr=err)

    def meet(self):
        """What the peer does, from the connection on."""
        if self.side == 'listen':
            while not talks.is_listening(self.port):
                time.sleep(0.05)
            sock = socket.create_connection(('127.0.0.1', self.port))
        else:
            sock = self.listener.accept()[0]
        self.link = Link(sock, self.case.reads)
        self.case.acts(self.link, self.args.mb)
        self.link.close()

    def row(self):
        """Runs it; answers whether all is well, and the row."""
        peer = threading.Thread(target=self.meet, daemon=True)
        began = time.monotonic()
        process = self.start()
        if self.case.acts is not is_not_there:
            peer.start()
        peak = peak_of(process, 900)
        seconds = time.monotonic() - began
        if peer.ident:
            peer.join(5)
        sent, last = what_was_sent(self.capture) if os.path.exists(self.capture) else (0, '-')
        verdict = talks.first_line(
            talks.judge(self.args.judge or self.args.program, self.capture, self.case.more))
        with open(self.base + '.out') as out:
            turns = talks.number_after('turns', out.read())
        well = process.returncode == 0 and seconds < self.case.turns + 5 and verdict == 'yes'
        peak = peak if seconds > 0.1 else '-'
        return well, talks.row(
            [self.case.name, self.side + 's', process.returncode, turns, f'{seconds:.1f}', peak,
             sent, self.link.got if self.link else 0, verdict, last, 'yes' if well else 'NO'],
            WIDTHS)


def main():
    parser = argparse.ArgumentParser(description=__doc__,
                                     formatter_class=argparse.RawDescriptionHelpFormatter)
    parser.add_argument('program')
    parser.add_argument('outdir')
    parser.add_argument('--judge')
    parser.add_argument('--jobs', type=int, default=8)
    parser.add_argument('--mb', type=int, default=100)
    parser.add_argument('--only', nargs='+', default=[])
    args = parser.parse_args()
    os.makedirs(args.outdir, exist_ok=True)
    cases = [case for case in PEERS if (args.only or not case.is_long)
             and all(word in case.name + case.side for word in args.only)]
    with ThreadPoolExecutor(args.jobs) as pool:
        rows = list(pool.map(lambda case: Meeting(args, case).row(), cases))
    print(talks.heading(COLUMNS, WIDTHS))
    for _, text in rows:
        print(text)
    print(f'{sum(well for well, _ in rows)} of {len(rows)} well')
    return 0 if rows and all(well for well, _ in rows) else 1


if __name__ == '__main__':
    sys.exit(main())
