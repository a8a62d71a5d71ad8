"""What `bench/peers` and `bench/hostile.py` share: the words of `bgp speak` and `bgp judge`, the
network namespace of a run, and the rows of a table.

`bgp speak` is AS 65001 with the identifier 192.0.2.1, its peer AS 65002 with 192.0.2.2. It
announces 10.1.0.0/16 and offers both families, where nothing else is said.
"""
import os
import subprocess
import sys

INSIDE = 'BGP_BENCH_INSIDE'


SETTINGS = {'--local-as': '65001', '--peer-as': '65002', '--local-id': '192.0.2.1',
            '--families': 'both'}
ENDS = ['--local', '192.0.2.1', '--peer', '192.0.2.2']


def settings(more=()):
    """The options that `speak` and `judge` are given of a session, where those of SETTINGS go that
    stand in `more`."""
    words = [word for name, value in SETTINGS.items() if name not in more for word in (name, value)]
    return words + ENDS + list(more)


def speak(program, side, port, turns, capture, more=(), own='10.1.0.0/16'):
    """The words of a run of `bgp speak` that announces a prefix; `side` is `--connect` or
    `--listen`."""
    return [program, 'speak', *settings(more), side, str(port), '--next-hop', '192.0.2.1',
            '--next-hop6', '2001:db8::1', '--announce', own, '--turns', str(turns),
            capture]


def judge(program, capture, more=()):
    """What `bgp judge` prints of a capture, for a session with the same options."""
    more = [word for word in more if word != '--quiet']
    return said([program, 'judge', *settings(more), '--no-refresh', capture])


def decode(program, capture):
    """What `bgp decode --mrt` prints of a capture."""
    return said([program, 'decode', '--mrt', *ENDS, capture])


def said(words):
    return subprocess.run(words, stdin=subprocess.DEVNULL, stdout=subprocess.PIPE,
                          stderr=subprocess.STDOUT, text=True, errors='replace').stdout


def first_line(text):
    """The first line of a text, `-` where there is none."""
    return (text.strip().splitlines() or ['-'])[0]


def number_after(word, text):
    """The rest of the line that begins with a word, `-` where no line does."""
    for line in text.splitlines():
        if line.startswith(word + ' '):
            return line[len(word) + 1:]
    return '-'


def row(cells, widths):
    """A row of a Markdown table, its cells filled with blanks."""
    return '| ' + ' | '.join(str(cell).ljust(width) for cell, width in zip(cells, widths)) + ' |'


def heading(cells, widths):
    return row(cells, widths) + '\n|' + '|'.join('-' * (width + 2) for width in widths) + '|'


def is_inside():
    """Whether this process was started by `inside`."""
    return os.environ.get(INSIDE) == '1'


def inside(words):
    """This script started again with other words, in a network namespace of its own in which the
    loopback is up, and in a process namespace whose processes all end with it."""
    start = ['unshare', '--net', '--pid', '--fork', '--mount-proc', '--kill-child', '--',
             'sh', '-c', 'ip link set lo up && exec "$@"', '', sys.executable,
             os.path.abspath(sys.argv[0])]
    return subprocess.run(start + words, env={**os.environ, INSIDE: '1'}, text=True,
                          stdin=subprocess.DEVNULL, stdout=subprocess.PIPE).stdout


def is_listening(port):
    """Whether a TCP socket of this namespace waits at a port (state 0A)."""
    with open('/proc/net/tcp') as table:
        rows = [line.split() for line in table][1:]
    return any(at[1].endswith(f':{port:04X}') and at[3] == '0A' for at in rows)
