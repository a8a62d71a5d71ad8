#!/usr/bin/env python3
"""Makes files that try to be markup in a report, or to break the page: by their names, by what a
router says when it shuts a session down (RFC 9003), and by not being what is read.

usage: page/hostile.py FOLDER

FOLDER is made. Wants Python 3.9."""
import pathlib
import struct
import sys

HERE = pathlib.Path(__file__).resolve().parent
sys.dont_write_bytecode = True
sys.path.insert(0, str(HERE.parent / "bench"))
import recordings  # noqa: E402

HEAD = struct.pack("<IHHiIII", 0xa1b2c3d4, 2, 4, 0, 0, 262144, 101)
NAMES = [
    "<img src=x onerror=parent.pwned=1>.pcap",
    "<svg onload=parent.pwned=1>.pcap",
    "<script>parent.pwned=1<",
    "\"><script>parent.pwned=1;",
    "'><b onclick='pwned=1'>.pcap",
    "&lt;b&gt; &amp;amp; &#60;i&#62;.pcap",
    "<!-- .pcap", "x --> ]]> ?> .pcap",
    "{{MODULE}} {{SCRIPT}} $& $1 \\u003c.pcap",
    "two\nlines\r\nand a\ttab.pcap",
    "\x01\x1b[31mred\x07\x7f.pcap",
    "\x80\x85\x9f.pcap".encode("latin-1").decode("latin-1"),
    "\u202egpj.pcap", "\u2066\u2028\u2029\u200b.pcap", "\ufeffbom.pcap", "\ufffe\uffff.pcap",
    "%3Cscript%3E %00 %0A.pcap", "javascript:parent.pwned=1", "\U0001f9ea é n\u0303.pcap",
    "n" * 250 + ".pcap", " .pcap", "a'b\"c`d.pcap", "a?b#c&d=e;f.pcap", "\\..\\..\\x.pcap",
]
SAYINGS = [
    b"<script>parent.pwned=1</script>",
    b"<img src=x onerror=parent.pwned=1>",
    b"</samp></pre><style>*{display:none}</style><form action=https://example.com>",
    b"\"'><iframe srcdoc='<script>parent.parent.pwned=1</script>'></iframe>",
    b"<meta http-equiv=refresh content='0;url=https://example.com/'>",
    b"<a href=javascript:parent.pwned=1 target=_top>here</a>",
    b"&lt;b&gt; &amp; &#0; &nbsp;",
    "\u202e\u2066 right to left \u2028 a line".encode(),
    b"\x00\x01\x1b[2J\x7f",
    "\x85\x9f".encode(),
    b"\xff\xfe\xc0\xaf\xed\xa0\x80",
    "\ufeff\ufffd\U0010ffff".encode(),
    b"<" * 255,
]


def recording(saying=b"done"):
    """Returns a session of two routers in packets, which one ends with these words."""
    made = [HEAD]
    recordings.write = made.append
    session = recordings.Session()
    session.begins(False)
    session.hears(recordings.update(1))
    cease = recordings.message(3, bytes([6, 2, len(saying)]) + saying)
    session.sends(recordings.PEER, recordings.ACK, cease)
    session.sends(recordings.PEER, recordings.FIN | recordings.ACK)
    return b"".join(made)


def main(folder):
    folder.mkdir(parents=True)
    whole = recording()
    files = {name: whole for name in NAMES}
    files |= {f"saying-{i}.pcap": recording(saying) for i, saying in enumerate(SAYINGS)}
    files |= {f"cut-{count}.pcap": whole[:count] for count in (3, 4, 23, 24, 40, 300, len(whole) - 1)}
    files |= {
        "empty": b"",
        "text.txt": b"<script>parent.pwned=1</script>\n" * 20,
        "zeros": bytes(100_000),
        "gzip.pcap.gz": b"\x1f\x8b\x08" + whole,
        "other.pcapng": b"\x0a\x0d\x0d\x0a" + bytes(range(256)) * 8,
        "far.pcap": HEAD + struct.pack("<IIII", 1, 0, 2 ** 32 - 1, 2 ** 32 - 1) + whole,
    }
    for name, octets in files.items():
        (folder / name).write_bytes(octets)


if __name__ == "__main__":
    if len(sys.argv) != 2:
        sys.exit(__doc__)
    main(pathlib.Path(sys.argv[1]))
