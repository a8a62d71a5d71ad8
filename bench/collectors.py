#!/usr/bin/env python3
"""What `bgp` costs on messages as a collector receives them, beside `md5sum` and its own other commands: in
instructions, which hardly differ between runs, and in processor time, the least of some runs by
turns. The messages are those of a raw stream that is given; `collected.py` makes a stream, a
capture (MRT) and a recording (pcap) of them.

    collectors.py STREAM PROGRAM [BEFORE]

PROGRAM is the program that `rt run` built (crates/bgp/out/bgp); BEFORE is another one, which is
measured in the same run. Wants Linux, Python 3.9, GNU time, valgrind, md5sum, and where it is
installed bgpdump. Prints figures; it is no test. Instructions are counted on some 2 MB, times on 20 MB."""
import os
import re
import resource
import shutil
import subprocess
import sys
import tempfile

HERE = os.path.dirname(os.path.realpath(__file__))
FEW, MANY = 2_000_000, 20_000_000
RUNS = 7
ENDS = '--local 192.0.2.1 --peer 192.0.2.2'.split()
JUDGE = ['judge', '--local-as', '65001', '--peer-as', '65002', '--local-id', '192.0.2.1',
         '--families', 'both', *ENDS]
QUIET = {'stdout': subprocess.DEVNULL, 'stderr': subprocess.DEVNULL}

# What is measured, beside what, and on which file: words of `bgp`, or another program with its name
# first.
CASES = [
    (['decode'], ['md5sum'], 'stream'),
    (['decode', '--json'], ['decode'], 'stream'),
    (['decode', '--mrt', *ENDS], ['md5sum'], 'capture'),
    (['decode', '--mrt', *ENDS], ['bgpdump', '-m'], 'capture'),
    (JUDGE, ['decode', '--mrt', *ENDS], 'capture'),
    (['list'], ['md5sum'], 'recording'),
    (['check'], JUDGE, 'recording'),
]


def command(program, words, file):
    return [*words, file] if words[0] in ('md5sum', 'bgpdump') else [program, *words, file]


def instructions(words, work):
    """How many instructions a command takes."""
    out = os.path.join(work, 'counted')
    ran = subprocess.run(['valgrind', '--tool=callgrind', f'--callgrind-out-file={out}', *words],
                         stdout=subprocess.DEVNULL, stderr=subprocess.PIPE, text=True)
    return int(re.search(r'Collected : (\d+)', ran.stderr)[1])


def spent(words):
    """The processor time of a command, in seconds."""
    before = resource.getrusage(resource.RUSAGE_CHILDREN)
    subprocess.run(words, **QUIET)
    after = resource.getrusage(resource.RUSAGE_CHILDREN)
    return after.ru_utime - before.ru_utime + after.ru_stime - before.ru_stime


def peak(words):
    """The greatest resident memory of a command, in octets. GNU time starts it, since what Python
    starts counts with Python's own."""
    ran = subprocess.run(['time', '-f', '%M', *words], stdout=subprocess.DEVNULL,
                         stderr=subprocess.PIPE, text=True)
    return int(ran.stderr.split()[-1]) * 1024


def compare(program, words, other, files, work):
    """Prints what one command costs beside another."""
    few, many = files
    counted = [instructions(command(program, it, few), work) for it in (words, other)]
    least = [None, None]
    for _ in range(RUNS):
        for at, it in enumerate((words, other)):
            now = spent(command(program, it, many))
            least[at] = now if least[at] is None else min(least[at], now)
    print(f'  {" ".join(words[:2])} to {" ".join(other[:2])}:',
          f'instructions {counted[0] / counted[1]:.2f} ({counted[0]:,} to {counted[1]:,}),',
          f'time {least[0] / max(least[1], 0.001):.2f}',
          f'({least[0] * 1000:.0f} to {least[1] * 1000:.0f} ms)', flush=True)


def main(stream, *programs):
    with tempfile.TemporaryDirectory() as work:
        def made(name, *words):
            path = os.path.join(work, name)
            with open(path, 'wb') as out:
                subprocess.run([sys.executable, f'{HERE}/collected.py', *words], stdout=out,
                               check=True)
            return path

        files = {kind: [made(f'{kind}-{size}', kind, stream, str(size)) for size in (FEW, MANY)]
                 for kind in ('stream', 'capture', 'recording')}
        many, equal = (made(it, it, '20') for it in ('communities', 'equal'))
        for program in programs:
            print(f'{program}:')
            for words, other, kind in CASES:
                if other[0] != 'bgpdump' or shutil.which('bgpdump'):
                    compare(program, words, other, files[kind], work)
            counted = [instructions([program, *JUDGE, '--extended', it], work)
                       for it in (many, equal)]
            print('  judge of 20 UPDATEs with 5,457 large communities each:',
                  f'{counted[0]:,} instructions; with equal ones: {counted[1]:,}')
            size = os.path.getsize(files['stream'][1])
            for words in (JUDGE, ['check'], ['list']):
                most = peak([program, *words, files['recording'][1]])
                print(f'  {words[0]} of a recording, peak memory: {most / 1e6:.1f} MB,',
                      f'{most / size:.2f} octets for each of the {size:,} of the session')


if __name__ == '__main__':
    if len(sys.argv) not in (3, 4):
        sys.exit(__doc__)
    main(*sys.argv[1:])
