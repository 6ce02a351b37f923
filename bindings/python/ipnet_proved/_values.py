"""Tables of routes whose values are Python objects of any kind."""
from itertools import islice
from typing import Any, Generic, Iterable, Iterator, List, Mapping, Optional, Tuple, TypeVar, Union, overload

from ._networks import Network, Networks, OneNetwork
from ._tables import Key, RouteTable, pairs_of, values_of, with_values

Value = TypeVar("Value")
Other = TypeVar("Other")
Values = Union[Mapping[Key, Value], Iterable[Tuple[Key, Value]]]


class ValueTable(Generic[Value]):
    """Networks with a value of any kind each, such as a name. It finds the longest network that contains an address.

    `table` is a RouteTable of the same networks, whose numbers are the places of their values in the list `values`. It
    is made of a dictionary or of pairs, as a RouteTable. Tables are equal if they have the same networks with equal
    values.

    >>> owners = ValueTable({"10.0.0.0/8": "Berlin", "10.1.0.0/16": "Hamburg"})
    >>> owners["10.1.2.3"], owners.get("11.0.0.1", "nobody"), owners.values
    ('Hamburg', 'nobody', ['Berlin', 'Hamburg'])
    """

    table: RouteTable
    values: List[Value]

    def __init__(self, routes: Values[Key, Value] = ()) -> None:
        pairs = pairs_of(routes)
        table = RouteTable([(network, place) for place, (network, _) in enumerate(pairs)])
        self._keep(table, [value for _, value in pairs])

    def _keep(self, table: RouteTable, values: List[Value]) -> None:
        """Keeps the networks of the table, whose numbers are places in the list, with their values in their order."""
        image, count = table.to_bytes(), len(table)
        self.values = [values[place] for place in values_of(image, 0, count)]
        self.table = RouteTable.from_bytes(with_values(image, range(count)))

    @classmethod
    def _of(cls, table: RouteTable, values: List[Value]) -> "ValueTable[Value]":
        """The networks of the table, whose numbers are places in the list of values."""
        made: "ValueTable[Value]" = object.__new__(cls)
        made._keep(table, values)
        return made

    def __eq__(self, other: object) -> bool:
        if not isinstance(other, ValueTable):
            return NotImplemented
        return self.table == other.table and self.values == other.values

    def __repr__(self) -> str:
        routes = [f"'{network}': {value!r}" for network, value in islice(self.iter_routes(), 5)]
        return f"ValueTable({{{', '.join(routes)}{', ...' if len(self) > 5 else ''}}})"

    def __len__(self) -> int:
        """The number of routes."""
        return len(self.table)

    def __contains__(self, address: OneNetwork) -> bool:
        """Whether a network contains the address."""
        return address in self.table

    @overload
    def get(self, address: OneNetwork) -> Optional[Value]: ...

    @overload
    def get(self, address: OneNetwork, default: Other) -> Union[Value, Other]: ...

    def get(self, address: OneNetwork, default: Any = None) -> Any:
        """The value of the longest network that contains the address, or `default` if none does."""
        place = self.table.get(address)
        return default if place is None else self.values[place]

    def __getitem__(self, address: OneNetwork) -> Value:
        """As get. Raises KeyError if no network contains the address."""
        return self.values[self.table[address]]

    @overload
    def exact(self, network: OneNetwork) -> Optional[Value]: ...

    @overload
    def exact(self, network: OneNetwork, default: Other) -> Union[Value, Other]: ...

    def exact(self, network: OneNetwork, default: Any = None) -> Any:
        """The value of this network itself, or `default` if the table does not have it."""
        place = self.table.exact(network)
        return default if place is None else self.values[place]

    def route(self, network: OneNetwork) -> Optional[Tuple[Network, Value]]:
        """The longest network that contains the whole network or the address, and its value; None if none does.

        >>> ValueTable({"10.0.0.0/8": "Berlin"}).route("10.1.0.0/16")
        (IPv4Network('10.0.0.0/8'), 'Berlin')
        """
        found = self.table.route(network)
        return None if found is None else (found[0], self.values[found[1]])

    def matches(self, network: OneNetwork) -> List[Tuple[Network, Value]]:
        """All routes whose networks contain the whole network or the address, the longest first."""
        return [(found, self.values[place]) for found, place in self.table.matches(network)]

    def iter_routes(self) -> Iterator[Tuple[Network, Value]]:
        """The routes, IPv4 first, ascending, each made when it is asked for."""
        return ((network, self.values[place]) for network, place in self.table.iter_routes())

    def routes(self) -> List[Tuple[Network, Value]]:
        """The routes, IPv4 first, ascending, a network before those that it contains."""
        return list(self.iter_routes())

    def updated(self, insert: Values[Key, Value] = (), remove: Networks = ()) -> "ValueTable[Value]":
        """As RouteTable.updated.

        >>> ValueTable({"10.0.0.0/8": "Berlin"}).updated({"10.1.0.0/16": "Hamburg"})["10.1.0.1"]
        'Hamburg'
        """
        pairs, count = pairs_of(insert), len(self.values)
        places = [(network, place) for place, (network, _) in enumerate(pairs, count)]
        return self._of(self.table.updated(places, remove), [*self.values, *(value for _, value in pairs)])
