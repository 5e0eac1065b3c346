"""What is written about an examination: lines, JUnit for test servers, and JSON for programs."""
import json
import os
import sys
import time
import xml.etree.ElementTree as tree

from . import wire
from .catalogue import CANNOT_TELL, FAIL, MUST, PASS
from ..common import Problem

NAMES = {1: 'request-network', 2: 'request-node', 3: 'node-endpoint', 4: 'network-state', 5: 'node-state'}
MOST_DIGITS = 96         # of a datagram that is shown
MOST_FRAMES = 4


class Progress:
    """A line for each examination as it ends, and on a terminal one while it goes on."""

    def __init__(self, count):
        self.count, self.place = count, 0
        self.is_seen = sys.stderr.isatty()

    def begins(self, examination):
        self.place += 1
        if self.is_seen:
            print(f'\r\x1b[K{self.place:3}/{self.count} {examination.name} (about {examination.seconds:g} s) ..', end='', file=sys.stderr, flush=True)

    def ends(self, result):
        if self.is_seen:
            print('\r\x1b[K', end='', file=sys.stderr, flush=True)
        why = f'  {result.why}' if result.why else ''
        print(f'{self.place:3}/{self.count} {result.verdict:11} {result.examination.name} {result.seconds:.1f} s{why}', flush=True)


def counts_of(results):
    found = {verdict: sum(each.verdict == verdict for each in results) for verdict in (PASS, FAIL, CANNOT_TELL)}
    must = sum(each.verdict == FAIL and each.examination.level == MUST for each in results)
    return found, must


def shown(each):
    """A datagram or an advertisement that was heard, as a line."""
    if isinstance(each, wire.Heard):
        kinds = ', '.join(NAMES.get(kind, f'type {kind}') for kind, _ in each.tlvs[:6]) or each.fault or 'nothing'
        what = f'{each.source} > {each.destination} {len(each.octets)} bytes: {kinds}'
    else:
        what = f'{each.source} Router Advertisement'
    digits = each.octets.hex()
    return f'frame {each.frame} {what}\n    {digits[:MOST_DIGITS]}{".." if len(digits) > MOST_DIGITS else ""}'


def summary(results, kept):
    """The lines at the end: how many there are of each verdict, and what failed, with the frames."""
    found, must = counts_of(results)
    yield f'{len(results)} examinations: {found[PASS]} pass, {found[FAIL]} fail ({must} MUST, {found[FAIL] - must} SHOULD), {found[CANNOT_TELL]} cannot-tell'
    for each in results:
        if each.verdict == FAIL:
            examination = each.examination
            yield f'fail {examination.name}: {examination.rule} {examination.level} ({examination.section})'
            yield f'  {each.why}; {each.where}' + ('' if kept else ' of a capture that was not kept; --pcap keeps it')
            for heard in each.heard[:MOST_FRAMES]:
                yield '  ' + shown(heard)


def as_json(session, results, capture):
    found, must = counts_of(results)
    rows = [{'name': each.examination.name, 'subject': each.examination.subject, 'rule': each.examination.rule,
             'section': each.examination.section, 'level': each.examination.level, 'verdict': each.verdict, 'why': each.why,
             'frames': each.frames, 'first_frame': each.span and each.span[0], 'last_frame': each.span and each.span[1],
             'seconds': round(each.seconds, 3)} for each in results]
    devices = [{'interface': each.link.name, 'node': each.id.hex(), 'endpoint': each.endpoint, 'address': each.address}
               for each in session.devices]
    return json.dumps({'devices': devices, 'capture': capture, 'counts': {**found, 'fail_must': must}, 'examinations': rows}, indent=2) + '\n'


def as_junit(session, results, begin):
    found, _ = counts_of(results)
    counts = {'tests': str(len(results)), 'failures': str(found[FAIL]), 'errors': '0', 'skipped': str(found[CANNOT_TELL]),
              'time': f'{sum(each.seconds for each in results):.3f}'}
    top = tree.Element('testsuites', {'name': 'tools/examine', **{key: counts[key] for key in ('tests', 'failures', 'errors', 'time')}})
    suite = tree.SubElement(top, 'testsuite', {'name': 'HNCP device', **counts, 'timestamp': time.strftime('%Y-%m-%dT%H:%M:%S', time.gmtime(begin)),
                                               'hostname': ' '.join(each.id.hex() for each in session.devices) or 'unknown'})
    properties = tree.SubElement(suite, 'properties')
    for each in session.devices:
        tree.SubElement(properties, 'property', {'name': f'device on {each.link.name}', 'value': str(each)})
    for each in results:
        examination = each.examination
        case = tree.SubElement(suite, 'testcase', {'classname': f'hncp.{examination.subject}', 'name': examination.name, 'time': f'{each.seconds:.3f}'})
        about = f'{examination.rule} {examination.level} ({examination.section})'
        if each.verdict == FAIL:
            tree.SubElement(case, 'failure', {'message': each.why, 'type': examination.level}).text = f'{about}\n{each.why}\n{each.where}'
        elif each.verdict == CANNOT_TELL:
            tree.SubElement(case, 'skipped', {'message': each.why})
        tree.SubElement(case, 'system-out').text = about
    tree.indent(top) if hasattr(tree, 'indent') else None
    return '<?xml version="1.0" encoding="UTF-8"?>\n' + tree.tostring(top, encoding='unicode') + '\n'


class Output:
    """A file of a report, tried before anything is sent, so that no run is lost. What was in it stays until the report is there."""

    def __init__(self, path):
        self.path, self.is_new = path, bool(path) and not os.path.exists(path)
        if path:
            with self.opened('a'):
                pass

    def opened(self, mode):
        try:
            return open(self.path, mode, encoding='utf-8')
        except OSError as error:
            raise Problem(f'{self.path}: {error.strerror}')

    def discard(self):
        """There is no report: a file that was not there before goes."""
        if self.is_new and os.path.exists(self.path):
            os.unlink(self.path)

    def write(self, text):
        if self.path:
            try:
                with self.opened('w') as file:
                    file.write(text)
            except OSError as error:
                raise Problem(f'{self.path}: {error.strerror}')
