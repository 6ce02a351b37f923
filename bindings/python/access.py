"""An access control: prints for each address or network on standard input whether a list allows it. The list has
networks, addresses, ranges and comments.

    python3 access.py allowed.txt < questions.txt

The list is compiled once, to a set; a question takes about a microsecond. The status is 0, or 3 if the list cannot be
read or has a bad line.
"""
import sys

import ipnet_proved


def answer(allowed: ipnet_proved.IpSet, line: str) -> str:
    """Whether the set allows the address or the network of the line."""
    try:
        return "allowed" if line in allowed else "refused"
    except ipnet_proved.NotANetwork:
        return "not a network"


def main() -> None:
    try:
        with open(sys.argv[1], "rb") as file:
            allowed = ipnet_proved.IpSet.from_list(file.read())
    except (IndexError, OSError, ValueError) as error:
        print(f"access: {error}", file=sys.stderr)
        sys.exit(3)
    for line in sys.stdin:
        line = line.rstrip("\n")
        print(f"{line}: {answer(allowed, line)}")


if __name__ == "__main__":
    main()
