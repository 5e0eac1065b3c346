"""Examinations of what is seen over the whole run: assignments that overlap, and what judge finds."""
from .. import captures
from ..common import Problem
from .catalogue import MUST, CannotTell, Fail, examination, want
from .prefixes import drawn_prefix, must_assign
from .wire import delegated, external
from ..judging.judgement import Judgement

SHOWN = 3                # findings that are told
BURDENED = ('other-endpoint', 'two-sources')     # what follows where a device had to leave its identifier
# What the examiner brings about: it says other hashes, leaves requests open, and is no peer for long.
PROVOKED = ('unanswered', 'apart', 'differ')
# What answers in several datagrams show that overtake each other; the examinations ask for it one by one.
OVERTAKEN = ('network-hash', 'number-falls')


@examination('RFC 7695, section 4.1; RFC 7788, section 6.3', MUST, 8)
def assigns_no_prefixes_that_overlap(x):
    """No two prefixes that a device publishes ever overlap; all is watched that it says in this run."""
    prefixes = [drawn_prefix(62), drawn_prefix(62)]
    x.join(external(*map(delegated, prefixes)))
    for each in prefixes:
        must_assign(x, each)
    watch = x.session.watch
    want(watch.why is None, f'{watch.why} overlap', *filter(None, [watch.heard]))


def findings(x, before):
    """What judge finds of the device in the frames before one."""
    made = Judgement(slack=x.session.slack)
    for datagram in captures.read(x.session.record.path, [captures.PORT]):
        if before is None or datagram.frame < before:
            made.take(datagram)
    made.close()
    addresses = {device.address for device in x.session.devices}
    nodes = {None, *(device.id.hex() for device in x.session.devices), *(node.hex() for node in x.session.former)}
    left_out = {*OVERTAKEN, *PROVOKED, *(BURDENED if len(x.session.former) > 1 else ())}
    return [each for each in made.findings if each.source in addresses and each.node in nodes and each.rule not in left_out]


@examination('the sections that tools/judge names', MUST, 10)
def judge_finds_nothing(x):
    """In all that the device sent while it was examined, tools/judge finds nothing."""
    x.own()
    x.network()
    x.session.record.flush()
    try:
        found = findings(x, x.session.left_at)
    except Problem as problem:
        raise CannotTell(str(problem))
    if found:
        fail = Fail('; '.join(f'{each.rule}: {each.text} ({each.sections})' for each in found[:SHOWN]) +
                    (f'; and {len(found) - SHOWN} more' if len(found) > SHOWN else ''))
        fail.frames = sorted({each.frame for each in found})[:10]
        raise fail
