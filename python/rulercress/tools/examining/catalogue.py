"""The examinations: what each is called, what rule it goes by, and how it ends."""
import collections

MUST, SHOULD = 'MUST', 'SHOULD'
PASS, FAIL, CANNOT_TELL = 'pass', 'fail', 'cannot-tell'
LONG = 40          # seconds from which on an examination is one of those that --quick leaves out

Examination = collections.namedtuple('Examination', 'name subject rule section level seconds links run')
ALL = []


class Fail(Exception):
    """The device does not do what the rule says; the frames show it."""

    def __init__(self, why, *heard):
        super().__init__(why)
        self.heard = sorted(set(heard), key=lambda each: each.frame)
        self.frames = sorted({each.frame for each in heard})


class CannotTell(Exception):
    """It cannot be seen whether the device does what the rule says."""


class Silent(CannotTell):
    """The device does not answer."""


def examination(section, level, seconds, links=1):
    """Puts a function down as an examination. The first line of its text is the rule, and its name is a sentence."""
    def put(function):
        rule = function.__doc__.strip().splitlines()[0]
        subject = function.__module__.rsplit('.', 1)[-1]
        ALL.append(Examination(function.__name__, subject, rule, section, level, seconds, links, function))
        return function
    return put


def want(holds, why, *heard):
    if not holds:
        raise Fail(why, *heard)


def listed():
    """Of each examination a line, by subject."""
    subject = None
    for each in ALL:
        if each.subject != subject:
            subject = each.subject
            yield f'{subject}:'
        more = ', two links' if each.links > 1 else ''
        yield f'  {each.name}: {each.rule} ({each.section}; {each.level}, {each.seconds:g} s{more})'
