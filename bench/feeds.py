#!/usr/bin/env python3
"""What a full feed costs, in one run on a quiet machine: processor time, the least of some runs by
turns, peak memory and then instructions, of programs beside each other, md5sum, bgpdump and a table
of hashes in C (hash.c) that makes the IPv4 changes and nothing else.

    feeds.py STREAM OCTETS PREFIXES FURTHER RECORDING RUNS PROGRAM [BEFORE ..]

The files: the messages of the raw stream STREAM again and again, until there are so many OCTETS, as
a stream and as a capture (collected.py); a session of so many PREFIXES with so many FURTHER records
(sessions.py); and the stream's messages as packets, a recording with so many octets RECORDING of
them. What a record takes early and late, by PROGRAM alone, is the difference between this session
with none and with a tenth of FURTHER, and with nine tenths and with all. The instructions of
bgpdump are counted for the capture alone. `STREAM 77000000 1000000 2000000 200000000 7` with one
program takes half an hour. Wants Linux, Python 3.9, GNU time, cc, valgrind, md5sum and bgpdump.
Prints figures; it is no test."""
import concurrent.futures
import os
import shutil
import subprocess
import sys
import tempfile

from collectors import ENDS, HERE, JUDGE, instructions, peak, spent

DECODE = ['decode', '--mrt', *ENDS]
# Judging the end that sends the UPDATEs.
SENDER = ['judge', '--local-as', '65002', '--peer-as', '65001', '--local-id', '192.0.2.2',
          '--families', 'both', '--local', '192.0.2.2', '--peer', '192.0.2.1']
# What is measured of each file beside md5sum.
CASES = (
    ('stream', [['decode']]),
    ('capture', [DECODE, JUDGE]),
    ('session', [DECODE, JUDGE]),
    ('recording', [['list'], JUDGE, SENDER, ['check']]),
)


def least(all_words, runs):
    """The least processor time of each command, in seconds: they run by turns."""
    best = [None] * len(all_words)
    for _ in range(runs):
        for at, words in enumerate(all_words):
            now = spent(words)
            best[at] = now if best[at] is None else min(best[at], now)
    return best


def commands(kind, file, programs):
    """Each command on a file: of the programs, and of those that are beside them."""
    beside = [['md5sum', file]]
    if kind in ('capture', 'session'):
        beside.append(['bgpdump', '-m', file])
    return [[it, *words, file] for it in programs for words in dict(CASES)[kind]] + beside


def named(words):
    """What a command is called: the program, and the command if it has one."""
    return f'{words[0]} {words[1]}{" of the sender" if "65002" in words[3:4] else ""}'


def print_times(kind, file, programs, runs):
    """Prints the time and the peak of each command on a file. bgpdump, which takes long, runs once."""
    print(f'{kind}: {os.path.getsize(file):,} octets', flush=True)
    all_words = commands(kind, file, programs)
    once = [words for words in all_words if words[0] == 'bgpdump']
    often = [words for words in all_words if words[0] != 'bgpdump']
    for words, time in zip(often + once, least(often, runs) + least(once, 1)):
        print(f'  {named(words)}: {time * 1000:.0f} ms, {peak(words) / 1e6:.1f} MB', flush=True)


def print_changes(table, files, runs):
    """Prints how long the table of hashes takes."""
    for kind in ('capture', 'session'):
        made = min(int(subprocess.check_output([table, files[kind]])) for _ in range(runs))
        print(f'{kind}: the changes in a table of hashes in C: {made} ms', flush=True)


def print_places(sessions, records, program, runs):
    """Prints what a record takes early and late: of sessions with no further records and so many, and
    with all but so many and all."""
    none, few, most, whole = least([[program, *JUDGE, it] for it in sessions], runs)
    early, late = ((more - fewer) / records * 1e6 for fewer, more in ((none, few), (most, whole)))
    print(f'{program}: a record takes {early:.2f} microseconds early, {late:.2f} late', flush=True)


def print_counts(files, programs, work):
    """Prints the instructions of each command, counted side by side: they hardly differ by that."""
    def count(words, at):
        folder = os.path.join(work, str(at))
        os.mkdir(folder)
        return instructions(words, folder)

    all_words = [words for kind, _ in CASES for words in commands(kind, files[kind], programs)
                 if words[0] != 'bgpdump' or kind == 'capture']
    with concurrent.futures.ThreadPoolExecutor(os.cpu_count()) as pool:
        counts = pool.map(count, all_words, range(len(all_words)))
        for words, counted in zip(all_words, counts):
            name = os.path.basename(words[-1])
            print(f'  {name}, {named(words)}: {counted:,} instructions', flush=True)


def main(stream, octets, prefixes, further, recording, runs, *programs):
    runs, part = int(runs), int(further) // 10
    with tempfile.TemporaryDirectory() as work:
        def made(name, script, *words):
            path = os.path.join(work, name)
            with open(path, 'wb') as out:
                subprocess.run([sys.executable, f'{HERE}/{script}', *words], stdout=out, check=True)
            return path

        def session(records):
            return made(f'session-{records}', 'sessions.py', prefixes, str(records), 'ended')

        table = os.path.join(work, 'hash')
        subprocess.run(['cc', '-O2', '-o', table, f'{HERE}/hash.c'], check=True)
        sessions = [session(it) for it in (0, part, int(further) - part, int(further))]
        files = {
            'stream': made('stream', 'collected.py', 'stream', stream, octets),
            'capture': made('capture', 'collected.py', 'capture', stream, octets),
            'session': sessions[-1],
            'recording': made('recording', 'collected.py', 'recording', stream, recording),
        }
        for kind, _ in CASES:
            print_times(kind, files[kind], programs, runs)
        print_changes(table, files, runs)
        print_places(sessions, part, programs[0], runs)
        print_counts(files, programs, work)


if __name__ == '__main__':
    if len(sys.argv) < 8 or int(sys.argv[4]) < 10:
        sys.exit(__doc__)
    for needed in ('bgpdump', 'cc', 'md5sum', 'time', 'valgrind'):
        if shutil.which(needed) is None:
            sys.exit(f'feeds.py: {needed} is missing')
    main(*sys.argv[1:])
