"""Tests of a home of HNCP routers, to copy and to change. pytest runs them: python3 -m pytest examples/test_a_home.py

They need the package rulercress (`pip install ./python` of the repository) and what plays homes (python/README.md). Where a test of
one home fails, its script and the page of its timeline lie beside this file.
"""
import os

from rulercress import Home, many

HERE = os.path.dirname(os.path.abspath(__file__))
UPLINK = '2001:db8:0:100::/56'
SEEDS = range(1, 51)
MOST_SECONDS = 40        # within which a home has to be sound after a power cut


def three_routers(seed: int) -> Home:
    """Gateway with an uplink, cellar and attic on one link, and a link behind each of them."""
    home = Home(seed=seed)
    gateway, cellar, attic = home.router('gateway'), home.router('cellar'), home.router('attic')
    home.link('lan', gateway, cellar, attic)
    for router, link in ((gateway, 'office'), (cellar, 'hobby'), (attic, 'studio')):
        home.link(link, router)
    gateway.external(UPLINK, valid=7200, preferred=3600)
    return home


def seconds_after_a_power_cut(seed: int) -> float:
    """The power of the whole house is out for ten seconds; a second later the provider delegates again. How many seconds
    after the power came back all routers are sound and have a prefix on each link."""
    home = three_routers(seed)
    gateway = home.routers[0]
    home.run(60)
    home.stop()
    home.run(10)
    home.start()
    gateway.withdraw(UPLINK)
    home.run(1)
    gateway.external(UPLINK, valid=7200, preferred=3600)
    return 1 + home.until(lambda: all(router.sound and len(router.prefixes) == 2 for router in home.routers), within=MOST_SECONDS - 1)


def test_a_home_is_sound_soon_after_a_power_cut() -> None:
    assert max(many(seconds_after_a_power_cut, SEEDS)) <= MOST_SECONDS


def test_a_router_that_is_not_heard_is_a_stranger() -> None:
    with Home(seed=7).saved_if_failing(os.path.join(HERE, 'one_way_loss')) as home:
        gateway, annex = home.router('gateway'), home.router('annex')
        home.link('lan', gateway, annex)
        gateway.external(UPLINK, valid=7200, preferred=3600)
        home.run(60, drop=lambda copy: copy.sender is annex and copy.receiver is gateway)
        assert not gateway.settled and gateway.why.cause == 'stranger'
        home.until(lambda: gateway.sound and annex.sound, within=40)


def test_a_switch_that_eats_multicasts_keeps_routers_apart() -> None:
    with Home(seed=7).saved_if_failing(os.path.join(HERE, 'deaf_switch')) as home:
        gateway, annex = home.router('gateway'), home.router('annex')
        home.link('lan', gateway, annex)
        home.run(60, drop=lambda copy: copy.is_multicast)
        assert (gateway.reach, annex.reach) == (1, 1)


def test_a_slow_cable_delays_a_home_and_no_more() -> None:
    with three_routers(3).saved_if_failing(os.path.join(HERE, 'slow_cable')) as home:
        attic = home.named['attic']
        home.run(30, delay=lambda copy: 0.3 if attic in (copy.sender, copy.receiver) else 0)
        assert attic.sound and len(attic.prefixes) == 2
