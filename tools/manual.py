"""The manual pages hncp.1, hnlook.1 and hncp-tools.1, made from docs/FORMATS.md and tools/README.md, so that they say the same.

    python3 tools/manual.py FOLDER      writes them to a folder
"""
import os
import re
import sys
import time

sys.dont_write_bytecode = True
import common

TOP = os.path.dirname(common.HERE)
FORMATS = os.path.join('docs', 'FORMATS.md')
TOOLS = os.path.join('tools', 'README.md')
COMMANDS = 'The command line'                    # the section whose tables are the forms and the statuses
LOOK = 'hnlook'                                  # the section of the second program
INLINE = re.compile(r'`([^`]+)`|\*\*([^*]+)\*\*|!?\[([^\]]*)\]\(([^)#]*)[^)]*\)')
CELL = re.compile(r'(?<!\\)\|')
ELSEWHERE = re.compile(r'"(Reports|The text of a datagram)"(, above)?')      # sections of the page of hncp, named in that of hnlook
DATA = '/usr/share/rulercress/crates/transcripts/data'
EXAMPLES = {
    'hncp': [('A stored home, with what its routers came to:', f'hncp lab < {DATA}/an_audited_home.script'),
             ('What the nodes of a captured link claimed:',
              "tshark -r home.pcap -Y 'udp.port == 8231' -T fields -e udp.payload | sed 's/^$/-/' | hncp watch")],
    'hnlook': [('Why a home is not settled:', f'hnlook why A < {DATA}/no_keep_alives_promised.home'),
               ('Which copies were lost:', f'hnlook log < {DATA}/a_lossy_home.script | grep " drop "')],
}


def section_marks(text):
    """A page by its headings: (depth, heading, lines)."""
    parts, coded = [(1, '', [])], False
    for line in text.split('\n'):
        coded ^= line.startswith('```')
        found = None if coded else re.fullmatch(r'(#+) (.+)', line)
        if found:
            parts.append((len(found[1]), found[2], []))
        else:
            parts[-1][2].append(line)
    return parts


def escaped(text):
    """A text that roff takes as it stands."""
    return text.replace('\\', '\\e').replace('-', '\\-').replace('\u2019', "'")


def linked(text, page):
    """The text of a link. The name of a page alone becomes its place in the tree."""
    is_name = page.endswith('.md') and re.fullmatch('[A-Z-]+|python|tools', text)
    return escaped(os.path.normpath(os.path.join('docs', page))) if is_name else inline(text)


def inline(text):
    """A text with its words in bold."""
    made, at = [], 0
    for found in INLINE.finditer(text):
        code, bold, link, page = found.groups()
        inner = escaped(code) if code is not None else inline(bold) if bold is not None else linked(link, page)
        made += [escaped(text[at:found.start()]), inner if link is not None else f'\\fB{inner}\\fR']
        at = found.end()
    return ''.join(made) + escaped(text[at:])


def guarded(text):
    """A line of text, which roff does not take for a request."""
    return '\\&' + text if text[:1] in ('.', "'") else text


def cells(row):
    return [cell.strip().replace('\\|', '|') for cell in CELL.split(row)[1:-1]]


def table(rows):
    """A table as a list: its first cells as tags. Further cells are told by the heads of their columns, if they are several."""
    heads = cells(rows[0])
    for row in map(cells, rows[2:]):
        yield '.TP'
        yield guarded(inline(row[0])) or '\\&'
        told = [(head, cell) for head, cell in zip(heads[1:], row[1:]) if cell]
        for place, (head, cell) in enumerate(told):
            if place:
                yield '.br'
            yield guarded(inline(f'{head}: {cell}' if head and len(heads) > 2 else cell))
        if not told:
            yield '\\&'


def blocks(lines):
    """The blocks of a section: a table, a code, a list's place or a paragraph, each with its lines."""
    at = 0
    while at < len(lines):
        begin, line = at, lines[at]
        if not line.strip() or line.startswith('<!--'):
            at += 1
        elif line.startswith('```'):
            at = next(place for place in range(at + 1, len(lines)) if lines[place].startswith('```')) + 1
            yield 'code', lines[begin + 1:at - 1]
        elif line.startswith('|'):
            while at < len(lines) and lines[at].startswith('|'):
                at += 1
            yield 'table', lines[begin:at]
        else:
            at += 1
            while at < len(lines) and lines[at].strip() and not re.match(r'\||```|\s*(-|\d+\.) ', lines[at]):
                at += 1
            yield 'text', lines[begin:at]


def roff(lines):
    """The lines of a section as roff."""
    for kind, part in blocks(lines):
        if kind == 'table':
            yield from table(part)
            yield '.PP'
        elif kind == 'code':
            yield from ['.PP', '.in +4n', '.nf', *(guarded(escaped(line)) for line in part), '.fi', '.in', '.PP']
        else:
            text = ' '.join(line.strip() for line in part)
            item = re.match(r'(-|\d+\.) (.*)', text)
            if item:
                yield from ['.IP ' + ('\\(bu 2' if item[1] == '-' else f'{item[1]} 4'), guarded(inline(item[2]))]
            else:
                yield from ['.PP', guarded(inline(text))]


def headed(parts, at_depth):
    """Sections as roff, with the headings below a depth as parts of them."""
    for depth, heading, lines in parts:
        mark = '.SH' if depth == at_depth else '.SS'
        yield f'{mark} {guarded(inline(heading.upper() if mark == ".SH" else heading).replace(chr(34), ""))}'
        yield from roff(lines)


def begun(name, about, version, moment):
    day = time.strftime('%Y-%m-%d', time.gmtime(moment))
    return [f'.TH {name.upper()} 1 {day} "Rulercress {version}" "Rulercress"', '.SH NAME', f'{escaped(name)} \\- {about}']


def tables_of(parts, heading):
    """The tables of a section, in order."""
    lines = next(lines for _, name, lines in parts if name == heading)
    return [part for kind, part in blocks(lines) if kind == 'table'], lines


def below(parts, heading):
    """A section with those below it."""
    at = next(place for place, part in enumerate(parts) if part[1] == heading)
    end = next((place for place in range(at + 1, len(parts)) if parts[place][0] <= parts[at][0]), len(parts))
    return parts[at:end]


def synopsis(rows):
    """The forms of a table of them."""
    forms = [row[0].strip('`') for row in map(cells, rows[2:])]
    yield '.SH SYNOPSIS'
    for place, form in enumerate(forms):
        program, rest = form.split(' ', 1)
        yield from (['.br'] if place else []) + [f'.B {escaped(program)} {escaped(rest)}']


def closing(others, examples=()):
    shown = [line for about, call in examples for line in ('.PP', escaped(about), '.PP', '.in +4n', '.nf', guarded(escaped(call)), '.fi', '.in')]
    return [*(['.SH EXAMPLES', *shown] if shown else []), '.SH SEE ALSO', ', '.join(f'\\fB{escaped(name)}\\fR({part})' for name, part in others) + '.',
            '.PP', 'RFC 7787, RFC 7788, RFC 7695, RFC 6206.']


def hncp_page(parts, version, moment):
    (forms, statuses), lines = tables_of(parts, COMMANDS)
    prose = [line for line in lines if not line.startswith('|')]
    begin = next(place for place, part in enumerate(parts) if part[1] == COMMANDS)
    end = next(place for place, part in enumerate(parts) if part[1] == LOOK)
    return [*begun('hncp', 'play homes of HNCP routers, and decode HNCP datagrams', version, moment), *synopsis(forms),
            '.SH DESCRIPTION', *roff(forms), *roff(prose), '.SH EXIT STATUS', *roff(statuses),
            *headed(parts[begin + 1:end], 2), *closing([('hnlook', 1), ('hncp-tools', 1), ('hnd', 8)], EXAMPLES['hncp'])]


def of_look(lines):
    """Lines of FORMATS as the page of hnlook has them: what stands on that of hncp is named so."""
    return [ELSEWHERE.sub(r'\1 of hncp(1)', line) for line in lines]


def hnlook_page(parts, version, moment):
    section = [(depth, name, of_look(lines)) for depth, name, lines in below(parts, LOOK)]
    (forms,), lines = tables_of(section, LOOK)
    of_hncp = tables_of(parts, COMMANDS)[0][1]
    statuses = [row.replace('; never with `soak`', '') for row in of_hncp if cells(row)[0] != '5']     # those of hncp, but for 5
    return [*begun('hnlook', 'look at what happened in a home of HNCP routers, and why', version, moment), *synopsis(forms),
            '.SH DESCRIPTION', *roff(lines), '.SH EXIT STATUS', *roff(statuses),
            *headed(section[1:], 3), *closing([('hncp', 1), ('hncp-tools', 1)], EXAMPLES['hnlook'])]


def tools_page(parts, version, moment):
    """Of each tool. In the package a tool NAME is the command hncp-NAME."""
    first = parts[1]
    return [*begun('hncp-tools', 'tools for those who test HNCP gateways', version, moment),
            '.SH DESCRIPTION', 'In the package a tool NAME is the command \\fBhncp\\-\\fINAME\\fR, and most are \\fBrulercress\\fR \\fINAME\\fR too. '
            'The files that the examples name lie below \\fI/usr/share/rulercress\\fR, and so do the pages.', *roff(first[2]), *headed(parts[2:], 2), *closing([('hncp', 1), ('hnlook', 1)])]


def joined(lines):
    """The text of a page, without requests for a paragraph that say nothing."""
    kept = []
    for line in lines:
        if kept and kept[-1] == '.PP' and line.startswith(('.PP', '.SH', '.SS', '.TP', '.IP')):
            kept.pop()
        if line == '.PP' and kept and kept[-1].startswith(('.SH', '.SS')):
            continue
        kept.append(line)
    return '\n'.join(kept) + '\n'


def pages(formats, tools, version, moment):
    """The manual pages: the name of each, and its text."""
    spoken, told = section_marks(formats), section_marks(tools)
    return {'hncp.1': joined(hncp_page(spoken, version, moment)), 'hnlook.1': joined(hnlook_page(spoken, version, moment)),
            'hncp-tools.1': joined(tools_page(told, version, moment))}


def version_of(changes):
    """The version that is told first."""
    found = re.search(r'^## (\d+\.\d+\.\d+)\b', changes, re.MULTILINE)
    if not found:
        raise common.Problem('CHANGES.md names no version')
    return found[1]


def main():
    given = common.parser(__doc__, [('folder', {'metavar': 'FOLDER', 'help': 'a folder'})])
    folder = given.parse_args().folder
    texts = {}
    for path in (FORMATS, TOOLS, 'CHANGES.md'):
        with open(os.path.join(TOP, path), encoding='utf-8') as file:
            texts[path] = file.read()
    made = pages(texts[FORMATS], texts[TOOLS], version_of(texts['CHANGES.md']), time.time())
    for name, text in made.items():
        with open(os.path.join(folder, name), 'w', encoding='utf-8') as file:
            file.write(text)
    print(f'{len(made)} pages')


if __name__ == '__main__':
    common.end(main)
