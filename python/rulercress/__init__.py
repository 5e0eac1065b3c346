"""Homes of HNCP routers (RFC 7788), driven by hand over the proved laboratory.

    from rulercress import Home

    home = Home(seed=7)
    gateway, annex = home.router('gateway'), home.router('annex')
    home.link('lan', gateway, annex)
    gateway.external('2001:db8:0:100::/56', valid=7200, preferred=3600)
    home.run(60, drop=lambda copy: copy.sender is annex)
    assert not gateway.settled
    home.until(lambda: gateway.sound, within=40)
    home.save('one_way_loss.script')

The laboratory is the shared object of the variable HN_LAB, or one that is found without it; else the programs hncp and hnlook
play. README.md says where they are looked for. Both come to the same.
"""
from importlib import import_module
from typing import TYPE_CHECKING, Any

if TYPE_CHECKING:
    from .campaigns import campaign, many
    from .errors import Malformed, NotReached, Problem, Refused, SeedsFailed
    from .home import Change, Home
    from .parts import Copy, Link, Router
    from .reports import Assigned, Audit, Item, State, Used, Why, decode
    from .shards import shard

__all__ = ['Assigned', 'Audit', 'Change', 'Copy', 'Home', 'Item', 'Link', 'Malformed', 'NotReached', 'Problem', 'Refused', 'Router',
           'SeedsFailed', 'State', 'Used', 'Why', 'campaign', 'decode', 'many', 'shard']
# Which module has which names. A module is loaded with the first of its names, so that a command of the package begins quickly.
_MODULES = {
    'campaigns': ('campaign', 'many'),
    'errors': ('Malformed', 'NotReached', 'Problem', 'Refused', 'SeedsFailed'),
    'home': ('Change', 'Home'),
    'parts': ('Copy', 'Link', 'Router'),
    'reports': ('Assigned', 'Audit', 'Item', 'State', 'Used', 'Why', 'decode'),
    'shards': ('shard',),
}


def __getattr__(name: str) -> Any:
    for module, names in _MODULES.items():
        if name in names:
            return getattr(import_module(f'.{module}', __name__), name)
    raise AttributeError(f'module {__name__} has no {name}')
