"""Five BGP daemons as `bench/peers` runs them: how each is set up, started, asked and told.

Each is AS 65002, or where the session is internal 65001, with the identifier 192.0.2.2, on
127.0.0.1 port 1790. It announces 10.2.0.0/16, 10.2.1.0/24 and 2001:db8:2::/48 to AS 65001, which is
`bgp speak`, and in the case of a table 5,000 routes more. None offers ROUTE-REFRESH or graceful
restart where it can be told so. In a configuration `@DIR@` stands for the folder of a run.
"""
import os
import pwd
import subprocess

PORT = 1790
OWN_ID, OWN_AS = '192.0.2.1', 65001
PEER_ID, PEER_AS = '192.0.2.2', 65002
OWN_ROUTE = '10.1.0.0/16'
OWN_ROUTE6, OWN_HOP6 = '2001:db8:1::/48', '2001:db8::1'
WITHDRAWN = '10.2.1.0/24'
HOP6 = '2001:db8::2'
TABLE = tuple(f'10.{16 + at // 256}.{at % 256}.0/24' for at in range(5000))


def ask(*words):
    """What a command prints, both on standard output and standard error."""
    try:
        asked = subprocess.run(words, stdin=subprocess.DEVNULL, stdout=subprocess.PIPE,
                               stderr=subprocess.STDOUT, timeout=10, text=True)
    except subprocess.TimeoutExpired:
        return 'no answer: ' + ' '.join(words)
    return asked.stdout


def lines(shape, prefixes):
    """A line of a configuration for each of these prefixes, each after its place in the shape."""
    return ''.join(shape.format(prefix) + '\n' for prefix in prefixes)


def family_of(prefix):
    return 'ipv6' if ':' in prefix else 'ipv4'


class Daemon:
    """A daemon. `room` is the folder of a run, `waits` says whether `bgp speak` listens, and `more`
    are the IPv4 prefixes that it announces beside its two."""

    name = program = ''
    connects = False    # can it be told a port to connect to?
    tables = True       # can it be given a table of routes?
    asn = PEER_AS

    def config(self, waits, more):
        """The text of its configuration."""
        raise NotImplementedError

    def command(self, room, conf, waits):
        """The words that start it in the foreground, and what its environment has more."""
        raise NotImplementedError

    def ready(self):
        """Called once it runs, for what its configuration can't hold."""

    def show(self, room, prefix):
        """What it tells of a route that `bgp speak` announces."""
        raise NotImplementedError

    def withdraw(self, room):
        """Has it withdraw 10.2.1.0/24."""
        raise NotImplementedError


class Bird(Daemon):
    name, program, connects = 'BIRD', 'bird', True

    def config(self, waits, more):
        return f'''router id {PEER_ID};
log "@DIR@/bird.log" all;
debug protocols {{ states, events }};
protocol device {{ }}
protocol static s4 {{ ipv4; route 10.2.0.0/16 blackhole;
{lines('  route {} blackhole;', more)}}}
protocol static gone {{ ipv4; route {WITHDRAWN} blackhole; }}
protocol static s6 {{ ipv6; route 2001:db8:2::/48 blackhole; }}
protocol bgp p {{
  local 127.0.0.1 {'' if waits else f'port {PORT} '}as {self.asn};
  neighbor 127.0.0.1 {f'port {PORT} ' if waits else ''}as {OWN_AS};
  hold time 90; connect delay time 1; multihop;
  enable route refresh off; graceful restart off; long lived graceful restart off;
  {'' if waits else 'passive on;'}
  ipv4 {{ import all; export all; next hop address {PEER_ID}; }};
  ipv6 {{ import all; export all; next hop address {HOP6}; }};
}}
'''

    def command(self, room, conf, waits):
        return ['bird', '-f', '-c', conf, '-s', f'{room}/bird.sock', '-P', f'{room}/bird.pid'], {}

    def show(self, room, prefix):
        return ask('birdc', '-s', f'{room}/bird.sock', 'show', 'route', 'all', prefix)

    def withdraw(self, room):
        return ask('birdc', '-s', f'{room}/bird.sock', 'disable', 'gone')


class Frr(Daemon):
    name, program = 'FRR', '/usr/lib/frr/bgpd'

    def config(self, waits, more):
        return f'''hostname frr
debug bgp neighbor-events
route-map OUT permit 10
 set ip next-hop {PEER_ID}
route-map OUT6 permit 10
 set ipv6 next-hop global {HOP6}
router bgp {self.asn}
 bgp router-id {PEER_ID}
 no bgp ebgp-requires-policy
 no bgp network import-check
 no bgp default ipv4-unicast
 neighbor 127.0.0.1 remote-as {OWN_AS}
 neighbor 127.0.0.1 timers 30 90
 neighbor 127.0.0.1 passive
 neighbor 127.0.0.1 disable-addpath-rx
 address-family ipv4 unicast
  network 10.2.0.0/16
  network {WITHDRAWN}
{lines('  network {}', more)}  neighbor 127.0.0.1 activate
  neighbor 127.0.0.1 route-map OUT out
 exit-address-family
 address-family ipv6 unicast
  network 2001:db8:2::/48
  neighbor 127.0.0.1 activate
  neighbor 127.0.0.1 route-map OUT6 out
 exit-address-family
'''

    def command(self, room, conf, waits):
        return ['/usr/lib/frr/bgpd', '-Z', '-n', '-S', '-f', conf, '-P', '0', '-l', '127.0.0.1',
                '-p', str(PORT), '--vty_socket', room, '-i', f'{room}/bgpd.pid',
                '--log', f'file:{room}/bgpd.log'], {}

    def show(self, room, prefix):
        return self.vtysh(room, f'show bgp {family_of(prefix)} unicast {prefix}')

    def withdraw(self, room):
        return self.vtysh(room, 'configure terminal', f'router bgp {self.asn}',
                          'address-family ipv4 unicast', f'no network {WITHDRAWN}')

    @staticmethod
    def vtysh(room, *lines):
        return ask('vtysh', '--vty_socket', room, '-d', 'bgpd',
                   *(word for line in lines for word in ('-c', line)))


class GoBgp(Daemon):
    name, program, connects, tables = 'GoBGP', 'gobgpd', True, False

    def config(self, waits, more):
        return f'''[global.config]
  as = {self.asn}
  router-id = "{PEER_ID}"
  port = {-1 if waits else PORT}
  local-address-list = ["127.0.0.1"]
[[neighbors]]
  [neighbors.config]
    neighbor-address = "127.0.0.1"
    peer-as = {OWN_AS}
  [neighbors.timers.config]
    hold-time = 90
    keepalive-interval = 30
    connect-retry = 5
  [neighbors.transport.config]
    local-address = "127.0.0.1"
    passive-mode = {'false' if waits else 'true'}
    {f'remote-port = {PORT}' if waits else ''}
  [[neighbors.afi-safis]]
    [neighbors.afi-safis.config]
      afi-safi-name = "ipv4-unicast"
  [[neighbors.afi-safis]]
    [neighbors.afi-safis.config]
      afi-safi-name = "ipv6-unicast"
'''

    def command(self, room, conf, waits):
        return ['gobgpd', '-f', conf, '-t', 'toml', '--api-hosts', '127.0.0.1:50051',
                '-l', 'debug', '-p'], {}

    def ready(self):
        for prefix, hop in (('10.2.0.0/16', PEER_ID), (WITHDRAWN, PEER_ID),
                            ('2001:db8:2::/48', HOP6)):
            ask('gobgp', 'global', 'rib', 'add', prefix, 'nexthop', hop, '-a', family_of(prefix))

    def show(self, room, prefix):
        return ask('gobgp', 'global', 'rib', prefix, '-a', family_of(prefix))

    def withdraw(self, room):
        return ask('gobgp', 'global', 'rib', 'del', WITHDRAWN, '-a', 'ipv4')


class ExaBgp(Daemon):
    """It is told by a process that it starts: that follows the file `told`, and writes what
    ExaBGP hears to the file `heard`."""

    name, program, connects = 'ExaBGP', 'exabgp', True

    def config(self, waits, more):
        return f'''process teller {{
  run /bin/sh -c "tail -n +1 -f @DIR@/told & cat > @DIR@/heard";
  encoder text;
}}
neighbor 127.0.0.1 {{
  router-id {PEER_ID};
  local-address 127.0.0.1;
  local-as {self.asn};
  peer-as {OWN_AS};
  hold-time 90;
  {f'connect {PORT};' if waits else f'passive true; listen {PORT};'}
  capability {{ route-refresh disable; graceful-restart disable; }}
  family {{ ipv4 unicast; ipv6 unicast; }}
  api {{ processes [ teller ]; receive {{ parsed; update; }} }}
  static {{
    route 10.2.0.0/16 next-hop {PEER_ID};
    route {WITHDRAWN} next-hop {PEER_ID};
{lines(f'    route {{}} next-hop {PEER_ID};', more)}    route 2001:db8:2::/48 next-hop {HOP6};
  }}
}}
'''

    def command(self, room, conf, waits):
        open(f'{room}/told', 'w').close()
        more = {'daemon.user': 'root', 'daemon.drop': 'false', 'daemon.daemonize': 'false',
                'api.cli': 'false', 'log.destination': 'stdout', 'tcp.port': str(PORT)}
        if not waits:
            more['tcp.bind'] = '127.0.0.1'
        return ['exabgp', conf], {f'exabgp.{name}': value for name, value in more.items()}

    def show(self, room, prefix):
        try:
            with open(f'{room}/heard') as heard:
                return heard.read()
        except FileNotFoundError:
            return ''

    def withdraw(self, room):
        with open(f'{room}/told', 'a') as told:
            told.write(f'neighbor 127.0.0.1 withdraw route {WITHDRAWN} next-hop {PEER_ID}\n')
        return 'told'


class OpenBgpd(Daemon):
    name, program = 'OpenBGPD', 'bgpd'

    def config(self, waits, more):
        return f'''AS {self.asn}
router-id {PEER_ID}
socket "@DIR@/bgpd.sock"
listen on 127.0.0.1 port {PORT}
holdtime 90
fib-update no
nexthop qualify via default
network 10.2.0.0/16
network {WITHDRAWN}
{lines('network {}', more)}network 2001:db8:2::/48
neighbor 127.0.0.1 {{
  remote-as {OWN_AS}
  announce IPv4 unicast
  announce IPv6 unicast
  announce refresh no
  announce restart no
  passive
}}
allow from any
allow to any
'''

    def command(self, room, conf, waits):
        # Debian's package leaves the folder to which it confines itself to its service unit
        os.makedirs(pwd.getpwnam('_openbgpd').pw_dir, exist_ok=True)
        return ['bgpd', '-d', '-v', '-f', conf], {}

    def show(self, room, prefix):
        return ask('bgpctl', '-s', f'{room}/bgpd.sock', 'show', 'rib', 'detail', prefix)

    def withdraw(self, room):
        return ask('bgpctl', '-s', f'{room}/bgpd.sock', 'network', 'delete', WITHDRAWN)


DAEMONS = {kind.name.lower(): kind() for kind in (Bird, Frr, GoBgp, ExaBgp, OpenBgpd)}
