"""Tests of RouteTable and ValueTable: a scan of all routes as a plain model, changes, pickling, and what is refused."""
import copy
import ipaddress
import pickle
import random
import unittest

import ipnet_proved
from ipnet_proved import BadLine, NotANetwork, NotATable, RouteTable, ValueTable


def drawn(draw, count):
    """Random routes of both families, near each other."""
    routes = {}
    for number in range(count):
        if draw.randrange(4):
            length = draw.randrange(33)
            address = (10 << 24 | draw.randrange(1 << 12)) & -1 << 32 - length
            routes[ipaddress.IPv4Network((address & (1 << 32) - 1, length))] = number
        else:
            length = draw.randrange(129)
            address = (0xfd << 120 | draw.randrange(1 << 12)) & -1 << 128 - length
            routes[ipaddress.IPv6Network((address & (1 << 128) - 1, length))] = number
    return routes


def covering(routes, network):
    """The longest of the routes that contains the whole network, and its value."""
    around = [(other.prefixlen, other, value) for other, value in routes.items()
              if other.version == network.version and network.subnet_of(other)]
    return max(around)[1:] if around else None


def around(routes, network):
    """All of the routes that contain the whole network, the longest first."""
    found = [(other, value) for other, value in routes.items()
             if other.version == network.version and network.subnet_of(other)]
    return sorted(found, key=lambda route: -route[0].prefixlen)


def longest(routes, address):
    holding = [(network.prefixlen, value) for network, value in routes.items()
               if network.version == address.version and address in network]
    return max(holding)[1] if holding else None


class Tables(unittest.TestCase):
    def test_against_a_scan(self):
        draw = random.Random(3)
        for count in (0, 1, 2, 5, 40):
            for _ in range(20):
                routes = drawn(draw, count)
                table = RouteTable(routes)
                self.assertEqual(len(table), len(routes))
                again = pickle.loads(pickle.dumps(table))
                for width, first, family in ((4, 10 << 24, ipaddress.IPv4Address), (16, 0xfd << 120, ipaddress.IPv6Address)):
                    addresses = [family(first + draw.randrange(1 << 13)) for _ in range(30)]
                    wanted = [longest(routes, address) for address in addresses]
                    self.assertEqual([table.get(address) for address in addresses], wanted)
                    asked = [ipaddress.ip_network((address, draw.randrange(8 * width + 1)), strict=False)
                             for address in addresses]
                    self.assertEqual([table.route(network) for network in asked],
                                     [covering(routes, network) for network in asked])
                    packed = again.get_packed(b"".join(address.packed for address in addresses), width, missing=999)
                    self.assertEqual([None if value == 999 else value for value in packed], wanted)

    def test_routes(self):
        draw = random.Random(4)
        for count in (0, 1, 2, 5, 40, 300):
            routes = drawn(draw, count)
            table = RouteTable(routes)
            listed = table.routes()
            self.assertEqual(listed, sorted(routes.items(), key=lambda route: (route[0].version, route[0])))
            addresses = [ipaddress.IPv4Address((10 << 24) + draw.randrange(1 << 13)) for _ in range(30)]
            addresses += [ipaddress.IPv6Address((0xfd << 120) + draw.randrange(1 << 13)) for _ in range(30)]
            self.assertEqual([None if place is None else listed[place] for place in table.route_all(addresses)],
                             [covering(routes, ipaddress.ip_network(address)) for address in addresses])

    def test_one_network(self):
        """The network itself, and all networks around it, beside a scan."""
        draw = random.Random(12)
        for count in (0, 1, 5, 60, 300):
            routes = drawn(draw, count)
            table, values = RouteTable(routes), ValueTable({network: str(value) for network, value in routes.items()})
            asked = [*routes, *drawn(draw, 40), ipaddress.ip_address("10.0.0.7"), ipaddress.ip_address("fd00::7")]
            for network in asked:
                wanted = around(routes, ipaddress.ip_network(network))
                texts = [(other, str(value)) for other, value in wanted]
                is_one = isinstance(network, (ipaddress.IPv4Address, ipaddress.IPv6Address))
                self.assertEqual(table.matches(network), wanted)
                self.assertEqual(table.matches(str(network)), wanted)
                self.assertEqual(values.matches(network), texts)
                self.assertEqual(table.route(network), wanted[0] if wanted else None)
                self.assertEqual(values.route(str(network)), texts[0] if texts else None)
                self.assertEqual(table.exact(network, -1), -1 if is_one else routes.get(network, -1))
                self.assertEqual(values.exact(network, "-1"), str(table.exact(network, -1)))
        self.assertEqual(RouteTable({"10.0.0.0/8": 1}).exact("10.9.9.9/8"), 1)
        self.assertEqual(RouteTable({"10.0.0.7/32": 1}).exact(ipaddress.ip_address("10.0.0.7")), 1)
        for call in (RouteTable().exact, RouteTable().matches, RouteTable().route, ValueTable().route):
            self.assertRaises(NotANetwork, call, "10.0.0.0/33")
            self.assertRaises(TypeError, call, 7)

    def test_equal(self):
        draw = random.Random(13)
        for count in (0, 1, 5, 40, 300):
            routes = drawn(draw, count)
            pairs = list(routes.items())
            draw.shuffle(pairs)
            table, again = RouteTable(routes), RouteTable(pairs + pairs[:3])
            self.assertEqual((table, hash(table)), (again, hash(again)))
            self.assertEqual({table: 1}[pickle.loads(pickle.dumps(table))], 1)
            names = ValueTable(routes)
            for other in (ValueTable(pairs), copy.deepcopy(names), pickle.loads(pickle.dumps(names))):
                self.assertEqual((names, names.routes()), (other, other.routes()))
            for network, value in pairs[:5]:
                self.assertNotEqual(table, RouteTable({**routes, network: value + 1}))
                self.assertNotEqual(names, ValueTable({**routes, network: value + 1}))
                self.assertNotEqual(table, table.updated(remove=network))
                self.assertNotEqual(names, names.updated(remove=network))
        self.assertNotEqual(RouteTable(), RouteTable().to_bytes())
        self.assertNotEqual(ValueTable(), RouteTable())
        self.assertRaises(TypeError, hash, ValueTable())

    def test_updated(self):
        """Tables after changes beside dictionaries after the same changes, also with an index and in several parts."""
        draw = random.Random(14)
        many = {ipaddress.IPv4Network((11 << 24 | number << 8, 24)): number for number in range(70_000)}
        for count, more in ((0, {}), (1, {}), (40, {}), (300, {}), (40, many)):
            for _ in range(5 if not more else 1):
                routes = {**drawn(draw, count), **more}
                insert = drawn(draw, 10)
                gone = draw.sample(list(routes), min(7, len(routes)))
                wanted = {**{network: value for network, value in routes.items() if network not in gone}, **insert}
                table, values = RouteTable(routes), ValueTable(routes)
                for form in (gone, [str(network) for network in gone], "\n".join(map(str, gone))):
                    self.assertEqual(table.updated(insert, form), RouteTable(wanted))
                self.assertEqual(values.updated(insert.items(), gone), ValueTable(wanted))
                self.assertEqual((table, values.routes()), (RouteTable(routes), table.routes()))
        table = RouteTable({"10.0.0.0/8": 1, "fd00::/8": 2})
        self.assertEqual(table.updated(), table)
        self.assertEqual(table.updated(remove=["10.9.9.9/8", "FD00:0::/8"]), RouteTable())
        self.assertEqual(table.updated({"10.0.0.0/8": 7}, remove="10.0.0.0/8").routes()[0][1], 7)
        for wrong in ("10.0.0.0/9", ["10.0.0.0/8", "10.0.0.0/7"]):
            with self.assertRaises(KeyError):
                table.updated(remove=wrong)
        with self.assertRaises(BadLine) as caught:
            table.updated({"10.0.0.0/9": 1, "10.0.0.0/33": 2})
        self.assertEqual(caught.exception.line, 2)
        self.assertRaises(NotANetwork, table.updated, remove="10.0.0.0/8\nx")
        self.assertRaises(OverflowError, table.updated, {"10.0.0.0/8": -1})

    def test_words(self):
        small = RouteTable({"10.0.0.0/8": 1, "fd00::/8": 2})
        self.assertEqual(repr(small), "RouteTable({'10.0.0.0/8': 1, 'fd00::/8': 2})")
        many = RouteTable({f"10.0.{number}.0/24": number for number in range(6)})
        self.assertTrue(repr(many).endswith("'10.0.4.0/24': 4, ...})"))
        self.assertEqual(repr(ValueTable({"10.0.0.0/8": "x", "fd00::/8": None})),
                         "ValueTable({'10.0.0.0/8': 'x', 'fd00::/8': None})")
        self.assertTrue(repr(ValueTable(dict(many.routes()))).endswith("'10.0.4.0/24': 4, ...})"))

    def test_values(self):
        """Values of any kind, also equal ones and None, beside a scan."""
        draw, kinds = random.Random(15), ("office", None, 2.5, ("a", 1), ["list"])
        for count in (0, 1, 40, 300):
            routes = {network: kinds[value % 5] for network, value in drawn(draw, count).items()}
            table = ValueTable(routes)
            listed = sorted(routes.items(), key=lambda route: (route[0].version, route[0]))
            self.assertEqual((len(table), table.routes(), table.values),
                             (len(routes), listed, [value for _, value in listed]))
            for address in [ipaddress.IPv4Address((10 << 24) + draw.randrange(1 << 13)) for _ in range(50)]:
                wanted = covering(dict.fromkeys(routes, 0), ipaddress.ip_network(address))
                value = routes[wanted[0]] if wanted else "none"
                self.assertEqual((table.get(address, "none"), address in table), (value, wanted is not None))
                [place] = table.table.match_all([address])
                self.assertEqual("none" if place is None else table.values[place], value)
        self.assertRaises(KeyError, ValueTable().__getitem__, "10.0.0.1")
        self.assertRaises(BadLine, ValueTable, {"10.0.0.0/33": "x"})
        self.assertEqual(ValueTable([("10.0.0.0/8", "a"), ("10.1.1.1/8", "b")]).routes()[0][1], "b")

    def test_many_routes(self):
        routes = {f"10.{number >> 8}.{number & 255}.0/24": number for number in range(20_000)}
        table = RouteTable(routes)
        self.assertEqual(len(table), 20_000)
        for number in range(0, 20_000, 77):
            self.assertEqual(table[f"10.{number >> 8}.{number & 255}.9"], number)
        first = table.iter_routes()
        self.assertEqual([next(first), next(first)], table.routes()[:2])
        self.assertNotIn("11.0.0.1", table)

    def test_index(self):
        """Tables that have an index: random networks of both families, also outside 2000::/3, and at the bounds of the
        sizes of an index. The model looks each address up by every prefix length."""
        draw = random.Random(11)
        for ipv4, ipv6 in ((255, 0), (256, 0), (0, 256), (300, 300), (4096, 10), (10, 4096), (70_000, 5_000)):
            routes = {}
            while len(routes) < ipv4:
                length = draw.choice((8, 12, 16, 20, 22, 23, 24, 24, 24, 32))
                routes[4, draw.getrandbits(32) >> 32 - length, length] = len(routes)
            while len(routes) < ipv4 + ipv6:
                length = draw.choice((0, 3, 16, 19, 29, 32, 40, 48, 48, 64, 128))
                number = draw.choice((draw.getrandbits(128), 1 << 125 | draw.getrandbits(125), draw.getrandbits(100)))
                routes[6, number >> 128 - length, length] = len(routes)
            lines = [(str(ipaddress.ip_network((number << width - length, length)) if width == 32
                          else ipaddress.IPv6Network((number << width - length, length))), value)
                     for (family, number, length), value in routes.items() for width in ((32, 128)[family == 6],)]
            table = RouteTable(lines)
            draw.shuffle(lines)
            self.assertEqual(RouteTable(lines).to_bytes(), table.to_bytes())
            for family, width, lengths in ((4, 32, range(32, -1, -1)), (6, 128, (128, 64, 48, 40, 32, 29, 19, 16, 3, 0))):
                numbers = [draw.getrandbits(width) for _ in range(200)] + [0, (1 << width) - 1]
                numbers += [(number << width - length) | draw.choice((0, (1 << width - length) - 1))
                            for (kind, number, length), _ in draw.sample(list(routes.items()), 200) if kind == family]
                wanted = [next((routes[family, number >> width - length, length] for length in lengths
                                if (family, number >> width - length, length) in routes), 1 << 31) for number in numbers]
                octets = b"".join(number.to_bytes(width // 8, "big") for number in numbers)
                self.assertEqual(list(table.get_packed(octets, width // 8, missing=1 << 31)), wanted)
            image, rows = table.to_bytes(), 32 + 16 * ipv4 + 32 * ipv6
            for at in {draw.randrange(rows, len(image)) for _ in range(20)} if rows < len(image) else ():
                with self.assertRaises(NotATable):
                    RouteTable.from_bytes(image[:at] + bytes([image[at] ^ 1 << draw.randrange(8)]) + image[at + 1:])

    def test_refused(self):
        self.assertRaises(BadLine, RouteTable, {"10.0.0.0/33": 1})
        self.assertRaises(BadLine, RouteTable, [("10.0.0.0/8\n10.0.0.0/9", 1)])
        self.assertRaises(OverflowError, RouteTable, {"10.0.0.0/8": 1 << 32})
        self.assertRaises(NotATable, RouteTable.from_bytes, b"")
        for network in ("10.0.0.0/8", ipaddress.ip_network("fd00::/8")):
            self.assertRaisesRegex(NotANetwork, "not one address", RouteTable().get, network)
        for routes in ("10.0.0.0/8", ["10.0.0.0/8"], ["ab"], [b"ab"], b"ab", [("10.0.0.0/8",)], [("::/8", 1, 2)], [1]):
            for table in (RouteTable, ValueTable):
                with self.subTest(routes=routes, table=table):
                    self.assertRaises(TypeError, table, routes)
        self.assertRaises(KeyError, RouteTable().__getitem__, "10.0.0.1")
        self.assertRaises(ValueError, RouteTable().get_packed, b"12345", 4)


if __name__ == "__main__":
    unittest.main()
