#!/usr/bin/env python3
"""What `bgp judge` costs beside `bgp decode --mrt` of the same capture, in one run: instructions,
which hardly differ between runs and of which the functions are listed that take most, and
processor time, the least of some runs by turns. Beside both stand md5sum, bgpdump where it is
installed, and a table of hashes in C (hash.c), which makes the IPv4 changes and nothing else.

    judge.py STREAM OCTETS PREFIXES FURTHER RUNS PROGRAM [BEFORE]

The captures: the messages of the raw stream STREAM again and again, until there are so many OCTETS
(collected.py), and a session of so many PREFIXES with so many FURTHER records (sessions.py); the
peer ends both. `judge.py mix.bgp 77000000 1000000 2000000 5 PROGRAM` is the whole, in some ten
minutes; 2000000 60000 0 shows in seconds what a change does. PROGRAM is the program that `rt run`
built (crates/bgp/out/bgp), or one of compile.py; BEFORE is another one, which is measured in the
same run. Wants Linux, Python 3.9, cc, valgrind and md5sum. Prints figures; it is no test."""
import os
import re
import shutil
import subprocess
import sys
import tempfile

from collectors import ENDS, HERE, JUDGE, spent

DECODE = ['decode', '--mrt', *ENDS]
# So many functions are listed.
MOST = 12


def counted(words, work):
    """How many instructions a command takes, and its functions with those of their own."""
    out = os.path.join(work, 'counted')
    ran = subprocess.run(['valgrind', '--tool=callgrind', f'--callgrind-out-file={out}', *words],
                         stdout=subprocess.DEVNULL, stderr=subprocess.PIPE, text=True)
    return int(re.search(r'Collected : (\d+)', ran.stderr)[1]), functions(out)


def functions(out):
    """What callgrind noted of each function: its own instructions, not those of what it calls."""
    names, own, name, is_call = {}, {}, None, False
    with open(out) as lines:
        for line in lines:
            if it := re.match(r'(c?)fn=\((\d+)\)(?: (.*))?', line):
                number = it[2]
                if it[3]:
                    names[number] = it[3]
                if not it[1]:
                    name = names[number]
            elif line.startswith('calls='):
                is_call = True
            elif it := re.match(r'[+*\d-]\S* (\d+)$', line):
                if not is_call:
                    own[name] = own.get(name, 0) + int(it[1])
                is_call = False
    return own


def least(all_words, runs):
    """The least processor time of each command, in seconds: they run by turns."""
    best = [None] * len(all_words)
    for _ in range(runs):
        for at, words in enumerate(all_words):
            now = spent(words)
            best[at] = now if best[at] is None else min(best[at], now)
    return best


def compare(name, file, programs, table, runs, work):
    """Prints what judging one capture costs."""
    print(f'{name}: {os.path.getsize(file):,} octets', flush=True)
    beside = [['md5sum', file]]
    if shutil.which('bgpdump'):
        beside.append(['bgpdump', '-m', file])
    commands = [[it, *words, file] for it in programs for words in (DECODE, JUDGE)]
    times = least(commands + beside, runs)
    for words, time in zip(beside, times[len(commands):]):
        print(f'  {words[0]}: {counted(words, work)[0]:,} instructions, {time * 1000:.0f} ms')
    made = min(int(subprocess.check_output([table, file])) for _ in range(runs))
    print(f'  the changes in a table of hashes in C: {made} ms')
    for at, program in enumerate(programs):
        decoding, judging = times[2 * at:2 * at + 2]
        few, _ = counted(commands[2 * at], work)
        many, own = counted(commands[2 * at + 1], work)
        print(f'  {program}: judge to decode --mrt: instructions {many / few:.2f}',
              f'({many:,} to {few:,}), time {judging / max(decoding, 0.001):.2f}',
              f'({judging * 1000:.0f} to {decoding * 1000:.0f} ms)', flush=True)
        for function, count in sorted(own.items(), key=lambda it: -it[1])[:MOST]:
            print(f'    {count / many:6.1%}  {re.sub("::<#.*", "", function)}')


def main(stream, octets, prefixes, further, runs, *programs):
    with tempfile.TemporaryDirectory() as work:
        def made(name, script, *words):
            path = os.path.join(work, name)
            with open(path, 'wb') as out:
                subprocess.run([sys.executable, f'{HERE}/{script}', *words], stdout=out, check=True)
            return path

        table = os.path.join(work, 'hash')
        subprocess.run(['cc', '-O2', '-o', table, f'{HERE}/hash.c'], check=True)
        for name, file in (
                ('the stream as a capture', made('mix', 'collected.py', 'capture', stream, octets)),
                (f'{prefixes} prefixes and {further} further records',
                 made('session', 'sessions.py', prefixes, further, 'ended'))):
            compare(name, file, programs, table, int(runs), work)


if __name__ == '__main__':
    if len(sys.argv) not in (7, 8):
        sys.exit(__doc__)
    main(*sys.argv[1:])
