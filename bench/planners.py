#!/usr/bin/env python3
"""Plans networks by other planners and by netset, and says what is wrong with each plan.

  bench/planners.py [NETSET]    NETSET is the built program; by default crates/netset/out/netset

It needs Debian's packages ipcalc and libnetaddr-ip-perl. It makes the table of docs/LIBRARY.md, "Why another planner".
"""
import ipaddress
import itertools
import os
import re
import subprocess
import sys

TOP = os.path.dirname(os.path.dirname(os.path.realpath(__file__)))
SPLITREF = 'print "$_\\n" for @{NetAddr::IP->new($ARGV[0])->splitref(@ARGV[1..$#ARGV])}'
# the planner, its arguments after the network, the network, the prefix lengths that this asks for
ROWS = [
    ("ipcalc", ["-s", "20", "100", "50"], "10.0.0.0/24", [27, 25, 26]),
    ("ipcalc", ["-s", "60", "60"], "10.0.0.0/25", [26, 26]),
    ("splitref", ["26", "25"], "10.0.0.0/24", [26, 25]),
]


def run(words, given=""):
    ran = subprocess.run(words, input=given, stdout=subprocess.PIPE, stderr=subprocess.STDOUT, universal_newlines=True,
                         check=False)
    return ran.stdout


def ipcalc_networks(network, words):
    """The networks that ipcalc prints for the requested sizes, and its complaint."""
    out = run(["ipcalc", "-n", "-b", network] + words)
    asked = out[out.index("1. Requested size"):]
    complaint = ["Network is too small"] if "Network is too small" in out else []
    return re.findall(r"Network: +(\S+)", asked), complaint


def splitref_networks(network, words):
    return run(["perl", "-MNetAddr::IP", "-e", SPLITREF, network] + words).split(), []


def faults_of(texts, whole, lengths):
    """What is wrong with the plan."""
    networks = [ipaddress.ip_network(text, strict=False) for text in texts]
    faults = ["{} is no /{}".format(text, length) for text, network, length in zip(texts, networks, lengths)
              if network.prefixlen > length]
    faults += ["{} and {} share addresses".format(texts[a], texts[b])
               for a, b in itertools.combinations(range(len(texts)), 2) if networks[a].overlaps(networks[b])]
    faults += ["{} is outside".format(text) for text, network in zip(texts, networks) if not network.subnet_of(whole)]
    if len(texts) < len(lengths):
        faults.append("too few networks")
    return faults


def main():
    netset = sys.argv[1] if len(sys.argv) > 1 else TOP + "/crates/netset/out/netset"
    print("| Planner | Prints | Wrong |\n|---|---|---|")
    for planner, words, network, lengths in ROWS:
        networks_of = ipcalc_networks if planner == "ipcalc" else splitref_networks
        found, complaint = networks_of(network, words)
        plan = run([netset, "plan", "-"] + [str(length) for length in lengths], network + "\n").split()
        for label, texts, said in ((" ".join([planner, network] + words), found, complaint),
                                   ("netset plan, lengths {}".format(lengths), plan, [])):
            faults = said + faults_of(texts, ipaddress.ip_network(network), lengths)
            print("| {} | {} | {} |".format(label, ", ".join(texts), "; ".join(faults) or "nothing"))


main()
