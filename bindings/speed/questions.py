"""Measures questions from Python beside py-radix: questions.py SET ADDRESSES. SET is a list of networks, and ADDRESSES
has the octets of IPv4 addresses. Prints a line for each: its name, and the least processor time of five
rounds in seconds for a million questions."""
import ipaddress
import sys
import time

import ipnet_proved

ROUNDS = 5
ONE_BY_ONE = 100_000


def least(work, times=1):
    """The least processor time of the work, times a number."""
    taken = []
    for _ in range(ROUNDS):
        start = time.process_time()
        work()
        taken.append(time.process_time() - start)
    return min(taken) * times


def ask_each(asked, things):
    for thing in things:
        asked(thing)


def ask_set(members, things):
    for thing in things:
        thing in members


def main():
    with open(sys.argv[1], encoding="ascii") as file:
        text = file.read()
    with open(sys.argv[2], "rb") as file:
        octets = file.read()
    members = ipnet_proved.IpSet(text)
    table = ipnet_proved.RouteTable((line, 1) for line in text.splitlines())
    texts = [str(ipaddress.IPv4Address(octets[at:at + 4])) for at in range(0, 4 * ONE_BY_ONE, 4)]
    objects = [ipaddress.IPv4Address(each) for each in texts]
    times = 1_000_000 // ONE_BY_ONE
    rows = [("contains_packed", least(lambda: members.contains_packed(octets, 4))),
            ("get_packed", least(lambda: table.get_packed(octets, 4))),
            ("text in set", least(lambda: ask_set(members, texts), times)),
            ("object in set", least(lambda: ask_set(members, objects), times)),
            ("table.get(text)", least(lambda: ask_each(table.get, texts), times))]
    try:
        import radix
    except ImportError:
        radix = None
    if radix is not None:
        tree = radix.Radix()
        for line in text.splitlines():
            tree.add(str(ipaddress.ip_network(line, strict=False)))
        if any((tree.search_best(each) is not None) != (each in members) for each in texts):
            sys.exit("the answers differ")
        rows.append(("py-radix search_best(text)", least(lambda: ask_each(tree.search_best, texts), times)))
    for name, seconds in rows:
        print(f"{name} {seconds:.4f}")


if __name__ == "__main__":
    main()
