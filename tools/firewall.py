"""A table for nftables that lets only the stations of a tree file send to a station (docs/NETWORK.md).

usage: firewall.py TREE STATION
"""

import sys

import hierarchy

TABLE = """# Station {station} of tree {number}: UDP to its port from the stations alone.
table inet {name}
delete table inet {name}
table inet {name} {{
    set stations {{
        type ipv4_addr . inet_service
        elements = {{ {stations} }}
    }}
    chain input {{
        type filter hook input priority filter; policy accept;
        {own} ip saddr . udp sport @stations accept
        {own} iifname "lo" accept
        {own} drop
    }}
}}"""


def parts(address):
    """The address and the port of a station, as nftables wants them: without zeros before them."""
    host, _, port = address.partition(":")
    return ".".join(str(int(it)) for it in host.split(".")), int(port)


def table_of(tree, station):
    """The table of a station, which replaces the one that was loaded before."""
    # in the order of the stations, an address that two of them share once
    every = list(dict.fromkeys(map(parts, tree.stations.values())))
    return TABLE.format(station=station, number=tree.number, name="smi_" + station.lower(),
                        stations=", ".join("%s . %d" % it for it in every),
                        own="ip daddr %s udp dport %d" % parts(tree.stations[station]))


def main():
    if len(sys.argv) != 3:
        sys.exit(__doc__.split("\n\n")[1])
    tree = hierarchy.read(sys.argv[1])
    if sys.argv[2] not in tree.stations:
        sys.exit("no station of that name: %s" % sys.argv[2])
    print(table_of(tree, sys.argv[2]))


if __name__ == "__main__":
    main()
