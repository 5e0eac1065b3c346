"""The check of timeline: its text, its page in a browser, what hosts hold, and that it shows nothing where a play changes."""
import collections
import ipaddress
import json
import os
import random
import re

import common
from checks import loopback, samples, unrolled
from checks.browser import Browser
from checks.helpers import SEED, Missing, lines_of, must, must_be, need_look, run, short
from rulercress.tools import hosts, looks, sums

LOOKED = 'two_routers_meet.script'          # each round of it is played by itself
PAGES = ['a_power_cut.script', 'hosts_are_told_of_a_new_prefix.script', 'a_lossy_home.script', 'a_forging_guest.script']
SENT = 'hosts_are_told_of_a_new_prefix.script'
SUMMED = 'a_short_outage.script'
LARGE = 32
TWINS = ['hncp 1', 'seed 3', 'link red', 'link blue', 'router A 00000001', 'router B 00000002', 'attach A 1 red', 'attach B 1 red',
         'attach A 2 blue', 'attach B 2 blue', 'external A 2001:db8::/56 7200 3600', 'run 30000 100']
# States of something at moments, the end, and when it was so first and then not.
SPELLS = [
    ([], 9, (None, [])),
    ([(0, False), (5, False)], 9, (None, [])),
    ([(0, False), (5, True)], 9, (5, [])),
    ([(0, True), (2, False), (4, True), (4, False), (4, True), (6, False)], 9, (0, [(2, 4), (6, 9)])),
    ([(3, True), (9, False)], 9, (3, [])),
]
OPENS = 3                                   # seconds
ATTEMPTS = 5
TRIED_DROPS = 10                            # at each page
CLICKS = 3                                  # at each page
MOST_BYTES = 20 * 2 ** 20


def path_of(name):
    return os.path.join(samples.DATA, name)


def front_of(lines, moment):
    """A script up to the end of a moment, without its reports; what lies in the midst of a `run` is cut there."""
    texts, now = [lines[0].text], 0
    for line in lines[1:]:
        if line.word in looks.REPORTS:
            continue
        if line.word in ('run', 'time'):
            now = int(line.words[1])
            if now > moment:
                return texts + ([f'run {moment} {line.words[2]}'] if line.word == 'run' else [])
        texts.append(line.text)
    return texts


def reports_at(lines, moment):
    """What all reports say at the end of a moment, by a play of its own."""
    texts, home = front_of(lines, moment), looks.Home()
    for text in texts[1:]:
        words = text.split()
        if words and not words[0].startswith('#'):
            home.play(words)
    asked = []
    for name, runs in home.running.items():
        asked.append(f'show {name}')
        if runs:
            asked += [f'{word} {name}' for word in ('hash', 'audit', 'used', 'prefixes')]
            asked += [f'advert {name} {endpoint}' for endpoint in home.endpoints_of(name)]
    asked.append('mail')
    before = len(common.play(texts))
    return common.play(texts + asked)[before:]


def compare_text():
    """The lines of routers in the text are those of plays up to each round."""
    lines = common.read_script(path_of(LOOKED))
    found = [line.split('\t') for line in lines_of('timeline', path_of(LOOKED))]
    must(all(len(each) == 3 for each in found), 'a line has not three columns')
    moments = [0, 100] + [moment for moment in range(200, 2001, 100)]
    expected, before = [], {}
    for moment in moments:
        said = [line for line in reports_at(lines, moment) if line.startswith(('hash ', 'audit '))]
        for line in said:
            word, name, rest = line.split(' ', 2)
            if before.get((word, name)) != rest:
                before[word, name] = rest
                expected.append((str(moment), name, word, rest))
    # Of one moment the text may have more than the play up to its end: the looks within it.
    told = [(moment, name, *what.split(',')[0].split(' ', 1)) for moment, name, what in found if what.startswith(('hash ', 'audit '))]
    missing = [each for each in expected if each not in told]
    must(not missing and len(expected) >= 6, f'{LOOKED}: the text has not {missing[:1]}')
    return len(expected)


# What a host holds (RFC 4862, section 5.5.3): the moments in seconds, lifetimes of what comes, and what is held then as
# seconds that are left, preferred and valid.
HOSTS = [
    ([(0, 7200, 3600)], 10, (3590, 7190)),                  # a new prefix
    ([(0, 0, 0)], 0, None),                                 # a new one that has ended makes no address: (d)
    ([(0, 3600, 7200)], 0, None),                           # preferred longer than valid: (c)
    ([(0, 9000, 3600), (100, 8000, 50)], 100, (50, 8000)),  # above two hours: as told, (e) 1
    ([(0, 600, 300), (100, 700, 300)], 100, (300, 700)),    # above what is left: as told, (e) 1
    ([(0, 7000, 3600), (100, 120, 0)], 100, (0, 6900)),     # two hours or less are left: valid stays, (e) 2
    ([(0, 7200, 3600), (0, 60, 60)], 0, (60, 7200)),        # exactly two hours are left: it stays too
    ([(0, 90000, 80000), (100, 120, 0)], 100, (0, 7200)),   # more than two hours are left: two hours, (e) 3
    ([(0, 90000, 80000), (100, 0, 0)], 100, (0, 7200)),     # also where it is told to end at once
    ([(0, 100, 50), (200, 100, 50)], 210, (40, 90)),        # it ended, and comes anew
    ([(0, 100, 50)], 100, None),                            # it ends
    ([(0, looks.FOREVER, looks.FOREVER)], 10 ** 9, (hosts.ENDLESS, hosts.ENDLESS)),
]


def advert_of(valid, preferred, flags=0xc0, length=64, prefix='20010db8000000010000000000000000'):
    return looks.Advert(f'8600000040000708{"0" * 16}0304{length:02x}{flags:02x}{valid:08x}{preferred:08x}00000000{prefix}')


def compare_hosts():
    for told, at, expected in HOSTS:
        host = hosts.Host()
        for moment, valid, preferred in told:
            host.hear(moment * 1000, advert_of(valid, preferred))
        held = host.held.get('2001:db8:0:1::/64')
        state = held and held.state(at * 1000)
        left = (max(0, held.preferred / 1000 - at), held.valid / 1000 - at) if state else None
        must(left == expected, f'a host that was told {told} holds {left} at {at} s, and not {expected}')
        must(not state or (state == 'preferred') == (left[0] > 0), f'{told}: {state}')
    for words in ({'flags': 0x80}, {'length': 56}, {'prefix': 'fe80' + '0' * 28}):
        host = hosts.Host()
        host.hear(0, advert_of(7200, 3600, **words))
        must(not host.held, f'a host takes an address from an option with {words}')
    return len(HOSTS) + 3


def compare_sent():
    """Where a script sends advertisements, hosts of that link know of a prefix from the first one on that has it."""
    path = path_of(SENT)
    told, known, expected = lines_of('timeline', path), set(), []
    for line in samples.transcript_of(path):
        if line.startswith('ra '):
            _, _, _, moment, data = line.split(' ')
            for each in looks.Advert(data).prefixes:
                prefix = str(ipaddress.IPv6Network((each[0], each[1])))
                if prefix not in known:
                    known.add(prefix)
                    expected.append(f'{moment}\thosts of hosts\t{prefix} preferred')
    must_be([line for line in told if '\thosts of hosts\t' in line and line.endswith(' preferred')], expected, f'{SENT}: hosts')
    must(len(expected) >= 2, f'{SENT} tells nothing')


def compare_honesty(folder):
    """A program that writes something else where reports were put in: nothing may be shown."""
    known, path = os.environ['HNCP'], os.path.join(folder, 'liar')
    script = path_of(LOOKED)
    with open(path, 'w') as file:
        file.write(f'#!/bin/sh\ncat > "{folder}/in"\nif [ $(wc -l < "{folder}/in") -gt {len(common.read(script))} ]; then\n'
                   f'"{known}" "$@" < "{folder}/in" | sed "s/^show B id=00000002 number=2/show B id=00000002 number=3/"\n'
                   f'else "{known}" "$@" < "{folder}/in"; fi\n')
    os.chmod(path, 0o755)
    os.environ['HNCP'] = path
    try:
        status, text, messages = run('timeline', script)
    finally:
        os.environ['HNCP'] = known
    must(status == 1 and not text and 'says something else' in messages, f'with another play it writes {text[:60]}, status {status}')


def compare_plays():
    """Each third script of the repository is played with looks, and says the same."""
    played = 0
    for path in samples.scripts()[::3]:
        transcript = samples.transcript_of(path)
        refused = common.refusal(transcript)
        if len(common.read(path)) > 300 or refused and refused[1] in common.CODES_BEFORE_PLAY | {9, 16}:
            continue
        play = looks.Play(common.read_script(path))
        must(play.own == transcript, f'{short(path)}: the transcript is another')
        played += len(play.looks)
    must(played > 2000, f'too few looks: {played}')
    return played


# Sums

def compare_sums():
    """When a home was sound, and how long not: by audits of all routers before each run and after each of its rounds."""
    told = [line.split('\t') for line in lines_of('timeline', path_of(SUMMED))]
    states = audited(common.read_script(path_of(SUMMED)))
    first = next(place for place, (_, so) in enumerate(states) if so)
    missed = [(after - moment, before) for (_, before), (moment, so), (after, _) in zip(states[first:], states[first + 1:], states[first + 2:])
              if not so and after > moment]
    times = sum(before for _, before in missed)
    expected = f'sound at {states[first][0] / 1000:g} s; then {"once" if times == 1 else f"{times} times"} not, {sum(each for each, _ in missed) / 1000:g} s in all'
    must([what for _, whom, what in told if whom == 'home'] == [expected], f'{SUMMED}: not "{expected}" in {told[-3:]}')
    attic = [(int(moment), what) for moment, whom, what in told if whom == 'hosts of attic']
    live = [moment for moment, what in attic if what.endswith(':/64 preferred')]
    gone = next(moment for moment, what in attic if 'assigned by nobody' in what)
    expected = f'a live prefix at {live[0] / 1000:g} s; then once none, {(live[1] - gone) / 1000:g} s in all'
    must(attic[-1][1] == expected, f'{SUMMED}: hosts of attic: {attic[-1][1]}, and not {expected}')
    for cases in SPELLS:
        given, end, expected = cases
        must(sums.spells(given, end) == expected, f'{given}: {sums.spells(given, end)}, and not {expected}')
    return 2 + len(SPELLS)


def audited(lines):
    """The moments before each run and after each round of it, and whether each router says then that the home is sound."""
    names = [line.words[1] for line in lines if line.word == 'router']
    texts, moments, now = [lines[0].text], [], 0

    def ask(*before):
        texts.extend([*before, *(f'audit {name}' for name in names)])
        moments.append(now)

    for line in lines[1:]:
        if line.word == 'run':
            ask()
            for now in range(now + int(line.words[2]), int(line.words[1]) + 1, int(line.words[2])):
                ask(f'run {now} {line.words[2]}')
        elif line.word not in looks.REPORTS:
            texts.append(line.text)
    said = [line for line in common.play(texts) if line.startswith('audit ')]
    return [(moment, all('sound=yes' in line for line in said[place * len(names):(place + 1) * len(names)])) for place, moment in enumerate(moments)]


# The page

def data_of(path):
    """What the page has."""
    with open(path, encoding='utf-8') as file:
        text = file.read()
    must(not re.search(r'(src|href)=|https?://(?!www\.w3\.org)|@import|url\((?!#)', text), f'{short(path)} names something outside of itself')
    return json.loads(re.search(r'^const D = (.*);$', text, re.M).group(1))


def compare_copies(name, data):
    """The page has each copy, with its fate as hncp alone shows it; what copies say is what `hncp decode` says."""
    path = path_of(name)
    must(data['missing'] is None, f'{name}: {data["missing"]}')
    injected = [common.decode('' if digits == '-' else digits) for digits in samples.injected(path)]
    found = [data['texts'][each[7]].split('\n') for each in data['copies'] if not each[8]]
    must_be(found, injected, f'{name}: injected datagrams')
    made, waiting = (int(each.split('=')[1]) for each in common.play(common.read(path) + ['mail'])[-1].split()[1:])
    numbers = {each[8] for each in data['copies'] if each[8]}
    must(numbers == set(range(1, made + 1)), f'{name}: {len(numbers)} copies, and not {made}')
    must(sum(each[6] == 1 for each in data['copies']) == waiting, f'{name}: not {waiting} copies wait')
    losses = [int(line.words[1]) for line in common.read_script(path)[1:] if line.word == 'loss']
    if any(losses):
        compare_losses(name, data, max(losses))
    else:
        compare_fates(name, data)
    return made


def compare_fates(name, data):
    """In the unrolled script each copy that the page delivers can be delivered there, and of those that it drops none."""
    texts, treats = unrolled.unroll(common.read_script(path_of(name)))
    fates = collections.defaultdict(list)
    for each in data['copies']:
        if each[8] and each[6] != 1:
            fates[each[8]].append('deliver' if each[6] == 0 else 'drop')
    drops = []
    for place, text in enumerate(texts):
        word, _, number = text.partition(' ')
        if word not in ('deliver', 'drop'):
            continue
        fate = fates[int(number)].pop(0) if fates[int(number)] else None
        must(place in treats or fate == word, f'{name}: the line "{text}", and the page has {fate}')
        if place in treats:
            texts[place] = f'{fate} {number}'
            drops += [place] if fate == 'drop' else []
    must(not any(fates.values()), f'{name}: the page has more fates than copies')
    must(not common.refusal(common.play(texts)), f'{name}: a copy cannot be delivered')
    for place in drops[:TRIED_DROPS]:
        again = texts[:place] + [texts[place].replace('drop', 'deliver')]
        refused = common.refusal(common.play(again))
        must(refused and refused[0] == place + 1 and refused[1] in (11, 12), f'{name}: "{texts[place]}", and it can be delivered')


def compare_losses(name, data, loss):
    """In a script with loss as many copies are lost as its loss makes likely, five standard deviations aside; and as many are
    delivered as come over the loopback of `hncp udp`."""
    lost, delivered = (sum(each[6] == fate and each[8] > 0 for each in data['copies']) for fate in (2, 0))
    made = lost + delivered
    must(abs(lost - made * loss / 100) < 5 * (made * loss / 100 * (1 - loss / 100)) ** 0.5, f'{name}: {lost} of {made} lost, by {loss} %')
    try:
        _, heard = next(loopback.plays([common.read(path_of(name))]))
    except Missing:
        return
    must(len(heard) == delivered, f'{name}: {delivered} copies are delivered, and {len(heard)} came over the loopback')


def open_page(browser, path):
    """Opens a page. It has to be quick once, since a busy machine may be slow for a while."""
    seconds = []
    while len(seconds) < ATTEMPTS and not (seconds and min(seconds) < OPENS):
        seconds.append(browser.open(path))
    must(min(seconds) < OPENS, f'{short(path)} took {min(seconds):.1f} s')


def check_page(browser, path, name, chance):
    """Opens the page, and clicks at moments: the reports have to be those of plays up to them."""
    open_page(browser, path)
    image = browser.screenshot(os.path.join(os.path.dirname(path), 'page.png'))
    must(image[:4] == b'\x89PNG' and len(image) > 20000, f'{name}: the screenshot has {len(image)} bytes')
    must(browser.value('document.querySelectorAll("#chart rect").length') > 20, f'{name}: no bands are drawn')
    lines, end = common.read_script(path_of(name)), browser.value('END')
    for moment in [100] + [chance.randrange(2, end // 100) * 100 for _ in range(CLICKS - 1)]:
        x, y = browser.value(f'setWindow({moment} - 1000, {moment} + 1000), (box => [box.left + X({moment}) + 1, box.top + 60])'
                             '(byId("chart").getBoundingClientRect())')
        browser.click(x, y)
        must(browser.value('chosen') == moment, f'{name}: a click at {moment} ms chooses {browser.value("chosen")}')
        must_be(browser.value('byId("reports").textContent').split('\n'), reports_at(lines, moment), f'{name}: reports at {moment} ms')
    browser.value('setWindow(0, END)')
    browser.drag(500, y, 900)
    must(0 < browser.value('to - from') < end, f'{name}: a drag does not zoom')
    return CLICKS


def check_arrows(browser, path):
    """In a window there is an arrow for each copy; one that is clicked shows what its datagram says."""
    browser.open(path)
    browser.value('setWindow(70150, 70700); byId("view").scrollTop = 1e6; drawRows()')
    shown = browser.value('document.querySelectorAll("#chart .arrow").length')
    expected = browser.value('D.copies.filter(each => each[0] >= 70150 && each[0] < 70700).length')
    must(shown == expected > 10, f'{shown} arrows, and not {expected}')
    at = browser.value('(() => { const box = document.querySelector("#chart .arrow circle").getBoundingClientRect();'
                       ' return [box.left + box.width / 2, box.top + box.height / 2]; })()')
    browser.mouse('mouseMoved', *at)
    tip = browser.value('byId("tip").style.display + byId("tip").textContent')
    must(tip.startswith('blockcopy') and 'node-endpoint' in tip, f'hover shows "{tip[:60]}"')
    browser.click(*at)
    must('node-endpoint' in browser.value('byId("held").textContent'), 'a click on an arrow shows no datagram')
    return shown


def check_small(browser, folder):
    """The page of a small home: nothing of it is blank, a part of its address is a window, a prefix has its name once though others
    publish it in turn, and arrows say by which of two links they go."""
    script, page = (os.path.join(folder, f'twins.{kind}') for kind in ('script', 'html'))
    with open(script, 'w') as file:
        file.write('\n'.join(TWINS) + '\n')
    lines_of('timeline', '--html', page, script)
    data = data_of(page)
    names = [data['links'][row[10]]['name'] for row in data['copies']]
    must(names == [TWINS[1 + row[2]].split()[1] for row in data['copies']], 'a copy goes over another link than its endpoint is on')
    browser.open(page)
    blank = browser.value('byId("view").clientHeight - total')
    gap = browser.value('innerHeight - byId("panel").getBoundingClientRect().bottom')
    must(blank <= 1 and abs(gap) <= 1, f'the page of a small home is blank for {blank} and {gap} points')
    must('sound at' in browser.value('byId("sums").textContent'), 'the page has no sums')
    must(browser.value('byId("changed").textContent').count('\n') >= 20, 'the page does not say what changed')
    browser.value('location.hash = "#1000-4000", new Promise(done => setTimeout(done, 300))')
    must_be(browser.value('[from, to]'), [1000, 4000], 'the window that the address says')
    browser.value('setWindow(1400, 2200), byId("view").scrollTop = 1e6, drawRows()')
    shown = set(browser.value('[...document.querySelectorAll("#chart .link")].map(each => each.textContent)'))
    must(shown == {'red', 'blue'}, f'arrows are said to go over {shown}')
    must(' over red' in browser.value('copyText(0)') + browser.value('copyText(1)'), 'the text of a copy has no link')
    pieces = [[1, 2, 'p', '', 'A'], [2, 3, 'p', '', ''], [3, 4, 'p', '', 'B'], [5, 6, 'p', '', 'B']]
    joined = browser.value(f'joinedPieces({json.dumps(pieces)}).map(each => inTurn(each.map(piece => piece[4] || "nobody")))')
    must_be(joined, ['A, then nobody, then B', 'B'], 'pieces of one prefix')


def large_script(path):
    """A tree of routers, of which each has a link of its own, for a minute and a half, with a loss."""
    texts = ['hncp 2', 'seed 1', 'loss 1'] + [f'link l{k}' for k in range(1, LARGE + 1)]
    for k in range(1, LARGE + 1):
        texts += [f'router r{k} {k:08x}', f'attach r{k} 2 l{k}'] + ([f'attach r{k} 1 l{k // 2}'] if k > 1 else [])
    with open(path, 'w') as file:
        file.write('\n'.join(texts + ['external r1 2001:db8::/56 7200 3600', 'run 90000 1000', 'audit r1', 'mail', '']))


def check_timeline(folder):
    """Held to: plays up to single moments: the text has the changes that they show, and a click into the page the
    reports that they write; the rules of RFC 4862, case by case; pages open within 3 seconds, ask for nothing, and
    leave no error on the console; with a program that plays another run nothing is shown."""
    need_look()
    told = compare_text()
    cases = compare_hosts()
    compare_sent()
    compare_honesty(folder)
    summed, played = compare_sums(), compare_plays()
    pages, copies = {}, 0
    for name in PAGES:
        pages[name] = os.path.join(folder, name + '.html')
        lines_of('timeline', '--html', pages[name], path_of(name))
        copies += compare_copies(name, data_of(pages[name]))
    script, large = os.path.join(folder, 'large.script'), os.path.join(folder, 'large.html')
    large_script(script)
    lines_of('timeline', '--every', '1000', '--html', large, script)
    must(os.path.getsize(large) < MOST_BYTES / 4, f'the page of {LARGE} routers has {os.path.getsize(large)} bytes')
    text = f'{told} changes by plays of their own, {played} looks, {cases} cases of hosts, {summed} sums, {copies} copies'
    return f'{text}, {in_browser(pages, script, large)}'


def check_large(browser, script, page):
    """The page of a large home, where one router of those with one hash is asked for an audit: each has the answer that it
    gives itself."""
    open_page(browser, page)
    must(browser.value('D.shared && D.routers.length') == LARGE, f'the page has {browser.value("D.routers.length")} routers')
    lines = common.read_script(script)
    for moment in (9000, 30000, 80000):
        browser.value(f'choose({moment})')
        must_be(browser.value('byId("reports").textContent').split('\n'), reports_at(lines, moment), f'{LARGE} routers: reports at {moment} ms')


def in_browser(pages, script, large):
    try:
        browser = Browser()
    except Missing as missing:
        return f'and no page was opened: {missing}'
    try:
        chance = random.Random(SEED)
        clicks = sum(check_page(browser, path, name, chance) for name, path in pages.items())
        arrows = check_arrows(browser, pages[PAGES[0]])
        check_large(browser, script, large)
        check_small(browser, os.path.dirname(script))
        must(not browser.errors(), f'the console has: {browser.errors()[:1]}')
    finally:
        browser.close()
    return f'{len(pages) + 2} pages with {clicks + 3} moments, {arrows} arrows'
