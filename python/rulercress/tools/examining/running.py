"""A run: the links are opened, the device is found, and the examinations are held in their order."""
import os
import tempfile
import time

from . import report
from .catalogue import ALL, CANNOT_TELL, FAIL, LONG, PASS
from .frames import Record
from .link import Link
from .session import Result, Session
# Each of these puts its examinations down, in the order in which they are held.
from . import answers, timing, peers, states, malformed, prefixes, hosts, between, identifier, watched  # noqa: F401

FAILED, CUT_SHORT = 3, 1
DEADLY = 'malformed'      # the subject whose examinations a device has to survive


def chosen(names, quick, links):
    """The examinations of these names or subjects, or all; and the words that name none."""
    known = {each.name for each in ALL} | {each.subject for each in ALL}
    unknown = [name for name in names if name not in known]
    found = [each for each in ALL if each.links <= links and (not names or each.name in names or each.subject in names)]
    return [each for each in found if not quick or each.seconds < LONG], unknown


def prepare(words, record, stack):
    """Opens the links, and finds the device."""
    ends = []
    for name in words.interfaces:
        ends.append(Link(name, record))
        stack.callback(ends[-1].close)
    session = Session(ends, record, words.slack)
    session.find(words.device)
    for device in session.devices:
        print(f'device {device}, heard on {device.link.name}', flush=True)
    for each in session.others():
        print(f'node {each.endpoint[0].hex()} at {each.source} is on {each.link.name} too, and may disturb the examination', flush=True)
    return session


def hold(session, wanted, results):
    """Holds the examinations, each of which is put into the results as it ends. The answer is after which the device was gone."""
    progress, gone = report.Progress(len(wanted)), None
    for each in wanted:
        progress.begins(each)
        if gone:
            result = Result(each, CANNOT_TELL, f'the device has sent nothing since {gone}')
        else:
            result = session.examine(each)
            if result.verdict in (FAIL, CANNOT_TELL) and not session.is_alive():
                gone = each.name
                if each.subject != DEADLY and not result.frames:
                    result.verdict, result.why = CANNOT_TELL, f'the device stopped: {result.why}'
            elif result.verdict == FAIL:
                result = once_more(session, result)
        results.append(result)
        progress.ends(result)
    return gone


def once_more(session, failed):
    """A failure has to show itself twice, so that a busy machine does not make one."""
    seconds = failed.seconds
    for _ in range(2):
        session.look_again()
        result = session.examine(failed.examination)
        result.seconds = seconds = seconds + result.seconds
        if result.verdict == FAIL:
            return result
        if result.verdict == PASS:
            break
    result.verdict, result.why = CANNOT_TELL, f'it failed once, and not when it was held again: {failed.why}'
    return result


class Capture:
    """Where the capture is written: to the file that is named, or to one that is gone at the end."""

    def __init__(self, path, stack):
        if not path:
            folder = stack.enter_context(tempfile.TemporaryDirectory(prefix='examine-'))
            path = os.path.join(folder, 'examination.pcap')
        self.record = Record(path)
        stack.callback(self.record.close)


def run(words, wanted, stack):
    """Examines, and gives the status."""
    outputs = [report.Output(words.junit), report.Output(words.json)]
    begin, results = time.time(), []
    try:
        record = Capture(words.pcap, stack).record
        session = prepare(words, record, stack)
    except BaseException:
        for each in outputs:
            each.discard()
        raise
    try:
        gone = hold(session, wanted, results)
    finally:
        record.flush()
        outputs[0].write(report.as_junit(session, results, begin))
        outputs[1].write(report.as_json(session, results, words.pcap))
        if results:
            print('\n'.join(report.summary(results, bool(words.pcap))), flush=True)
    if gone:
        print(f'the device has sent nothing since {gone}: it stopped, or it was cut off', flush=True)
    return FAILED if any(each.verdict == FAIL for each in results) else CUT_SHORT if gone else 0
