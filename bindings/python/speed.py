"""Compares the times of ipnet_proved and the standard module ipaddress, from text to text: python3 speed.py LIST.."""
import ipaddress
import sys
import time

import ipnet_proved


def collapsed(text):
    """The aggregate by ipaddress."""
    networks = [ipaddress.ip_network(line, strict=False) for line in text.split()]
    families = ([n for n in networks if n.version == version] for version in (4, 6))
    return "".join(f"{n}\n" for family in families for n in ipaddress.collapse_addresses(family))


def timed(work, text):
    start = time.process_time()
    answer = work(text)
    return answer, time.process_time() - start


def main():
    for path in sys.argv[1:]:
        with open(path, encoding="utf8") as file:
            text = file.read()
        answer, proved = timed(ipnet_proved.aggregate_text, text)
        wanted, other = timed(collapsed, text)
        if answer != wanted:
            sys.exit(f"{path}: the answers differ")
        print(f"{path}: proved {proved:.3f} s, ipaddress {other:.3f} s, 1 to {other / proved:.0f}")


if __name__ == "__main__":
    main()
