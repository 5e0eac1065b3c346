"""Routers, links and copies of a home."""
from typing import TYPE_CHECKING, Dict, List, Optional, Union

from .log import Sent
from .reports import Assigned, Audit, Item, State, Used, Why, assigned_of, audit_of, decode, state_of, used_of, why_of

if TYPE_CHECKING:
    from .home import Home


class Link:
    """A link of a home, with its name."""

    def __init__(self, name: str) -> None:
        self.name = name

    def __repr__(self) -> str:
        return f'<link {self.name}>'


class Router:
    """A router of a home.

    What it tells is of the moment, and leaves no line in the script. By the programs each first question after a line costs a
    play of the home so far; further questions of the same moment cost none where they were asked at earlier moments, too.
    """

    def __init__(self, home: 'Home', name: str, identifier: int) -> None:
        self.home = home
        self.name = name
        self.identifier = identifier                # with which it was made
        self.running = True
        self.endpoints: Dict[int, Link] = {}        # the link of each attached endpoint

    def __repr__(self) -> str:
        return f'<router {self.name} {self.identifier:08x}{"" if self.running else ", stopped"}>'

    def _report(self, word: str) -> List[str]:
        return self.home.ask(f'{word} {self.name}')

    @property
    def state(self) -> State:
        """Identifier, sequence number, reach and what it holds. A stopped router has a state, too."""
        return state_of(self._report('show')[0])

    @property
    def reach(self) -> int:
        """How many nodes it reaches, itself among them."""
        return self.state.reach

    @property
    def hash(self) -> str:
        """The network state hash, in 16 hexadecimal digits."""
        return self._report('hash')[0].split()[2]

    @property
    def audit(self) -> Audit:
        """What `audit` says. The report of a stopped router is refused with code 12; so it is for the next five."""
        return audit_of(self._report('audit')[0])

    @property
    def settled(self) -> bool:
        """Whether the routers that it reaches know each other as they are."""
        return self.audit.settled

    @property
    def quiet(self) -> bool:
        """Whether it is settled, and none of these routers would change its assignments."""
        return self.audit.quiet

    @property
    def sound(self) -> bool:
        """Whether it is settled and quiet. Then the prefixes of these routers are right, which is proved."""
        return self.audit.sound

    @property
    def prefixes(self) -> List[Assigned]:
        """The prefixes of its endpoints, in ascending order of delegated prefix and endpoint."""
        return [assigned_of(line) for line in self._report('prefixes')[1:]]

    @property
    def used(self) -> List[Used]:
        """The delegated prefixes that it uses, in ascending order; lifetimes in seconds."""
        return [used_of(line) for line in self._report('used')[1:]]

    @property
    def why(self) -> Why:
        """Why it is not settled and quiet, as `hnlook why` tells it."""
        return why_of(self.home.look('why', self.name))

    @property
    def table(self) -> List[str]:
        """What it holds, as the lines of `hnlook table`."""
        return self.home.look('table', self.name)

    def external(self, prefix: str, valid: int = 7200, preferred: int = 3600) -> None:
        """It gets a delegated prefix, or the same one anew. Lifetimes are in seconds."""
        self.home.external(self, prefix, valid, preferred)

    def withdraw(self, prefix: str) -> None:
        """It no longer has this delegated prefix."""
        self.home.withdraw(self, prefix)

    def start(self) -> None:
        """It restarts, whether it runs or not."""
        self.home.start(self)

    def stop(self) -> None:
        """It stops: it does nothing until it is started."""
        self.home.stop(self)


class Copy:
    """A datagram on its way to one endpoint.

    `number` is that of the home's mail, from 1 on; `sender` and `receiver` are routers, `sender_endpoint` and `endpoint`
    numbers of their endpoints; `link` is where it was sent; `moment` is when, in seconds; `bytes` is what it says.
    """

    def __init__(self, home: 'Home', sent: Sent) -> None:
        self.number = sent.number
        self.moment = sent.moment / 1000
        self.sender: Router = home.named[sent.sender]
        self.sender_endpoint = sent.sender_endpoint
        self.receiver: Router = home.named[sent.receiver]
        self.endpoint = sent.endpoint
        self.link: Optional[Link] = home.links.get(sent.link)
        self.is_multicast = sent.is_multicast
        self.bytes = sent.data

    def __repr__(self) -> str:
        way = 'multicast' if self.is_multicast else 'unicast'
        return f'<copy {self.number}, {way} of {len(self.bytes)} bytes from {self.sender.name} to {self.receiver.name}>'

    def __eq__(self, other: object) -> bool:
        return isinstance(other, Copy) and (self.receiver.home, self.number) == (other.receiver.home, other.number)

    def __hash__(self) -> int:
        return hash((id(self.receiver.home), self.number))

    @property
    def decoded(self) -> List[Item]:
        """Its TLVs, as `hncp decode` tells them."""
        return decode(self.bytes)

    def has(self, name: str) -> bool:
        """Whether a TLV of this name, such as `node-state`, is among its TLVs or within them."""
        return any(item.name == name for item in self.decoded)


Place = Union[Link, int]
