"""Inputs at the limits of `docs/FORMATS.md`: the longest ones, those a byte longer, and plays that come to their ends."""
from fuzzing.runs import Case

MOST = 2 ** 24
LINE, CAPTURED = 16384, 131014
ONE = b'router A 00000001\nlink L\nattach A 1 L\n'


def filled(head, line, size=MOST):
    """So many bytes: a head, one line again and again, and a comment or a space that fills the rest."""
    text = head + line * ((size - len(head)) // len(line))
    return text + b'#' * (size - len(text))


HOMES = b'hncp 2\nseed 1\nlink L\n'


def shown(data):
    """A line that says which input it is: the longest of the last ones, cut."""
    return max(data[-400:].split(b'\n'), key=len)[:24].decode('latin-1').strip() or 'spaces'


def home(count, until, step):
    """Routers on one link, which run."""
    lines = [HOMES] + [b'router r%d %08x\nattach r%d 1 L\n' % (k, k, k) for k in range(1, count + 1)]
    return b''.join(lines) + b'external r1 2001:db8::/56 7200 3600\nrun %d %d\nmail\n' % (until, step)


def states(count, same):
    """A capture of so many Node States: of as many nodes, or of one whose numbers conflict."""
    return b''.join(b'00050014%08x%08x00000000f0f91d40%08x\n' % ((1, k // 2, k) if same else (k, 1, 7)) for k in range(count))


def scripts():
    """Scripts, and the line and code that refuses each, or None."""
    yield filled(b'hncp 2\n', b'mail\n'), None
    yield filled(b'hncp 2\n', b'#\n'), None
    yield filled(b'hncp 2\n', b'run 1 1\n'), None
    yield filled(b'hncp 2\n' + ONE, b'inject A 1 uni -\n'), None
    yield filled(b'hncp 2\n', b'mail\n', MOST + 1), (0, 15)
    yield b'hncp 1\n#' + b' ' * (LINE - 1), None
    yield b'hncp 1\n#' + b' ' * LINE, (2, 5)
    yield b'hncp 2\n' + ONE + b'inject A 1 uni ' + b'0' * (LINE - 16) + b'\n', None
    yield b'hncp 2\nrun 281474976710656 1\n', (2, 9)
    yield b'hncp 2\n' + ONE + b'run 281474976710656 1\n', (5, 9)
    yield home(128, 60000, 100), (261, 9)
    yield home(32, 6000000, 200), (69, 9)
    yield b'hncp 2\n' + b''.join(b'router r%d %08x\n' % (k, k) for k in range(129)), (130, 9)
    yield b'hncp 1\n' + b''.join(b'router r%d %08x\n' % (k, k) for k in range(65)), (66, 9)


def captures():
    yield filled(b'', b'-\n')[:-1] + b'\n', None
    yield b'-\n' * (MOST // 2) + b'-', (0, 15)
    yield b'0' * CAPTURED, None
    yield b'0' * (CAPTURED + 1), (1, 5)
    yield states(MOST // 57, False), None
    yield states(MOST // 57, True), None


def hexes():
    yield b'0' * MOST, None
    yield b'0' * (MOST + 1), (0, 15)
    yield b'00010000' * (MOST // 8), None
    yield b' ' * MOST, None
    yield b'0021fffc' * 8000, None


def cases():
    """Each case, and the refusal that ends it, or None."""
    for data, refused in scripts():
        yield Case('lab', ['hncp', 'lab'], data, ''), refused
        yield Case('log', ['hnlook', 'log'], data, ''), refused
        name = 'A' if ONE in data else 'r1'
        for form in ('why', 'calm', 'table') if data.startswith(HOMES) else ():
            yield Case(form, ['hnlook', form, name], data, ''), refused
    for data, refused in captures():
        yield Case('watch', ['hncp', 'watch'], data, ''), refused
    for data, refused in hexes():
        yield Case('decode', ['hncp', 'decode'], data, ''), refused if refused or not data.startswith(b'0021') else 'free'
    for count in ('2', '32'):
        yield Case('soak', ['hncp', 'soak', count, '18446744073709551615'], b'', ''), None
