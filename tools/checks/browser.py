"""A page in headless Chromium, by its remote protocol over a pipe: messages of JSON, each ended by a zero byte."""
import base64
import json
import os
import select
import shutil
import subprocess
import tempfile
import time

from checks.helpers import Missing, Wrong, must

NAMES = ('chromium', 'chromium-browser', 'google-chrome')
FLAGS = ['--headless', '--remote-debugging-pipe', '--disable-gpu', '--hide-scrollbars', '--no-first-run', '--disable-extensions',
         '--disable-background-networking', '--disable-dev-shm-usage', '--force-device-scale-factor=1']
PATIENCE = 60    # seconds


def program():
    found = next((path for path in map(shutil.which, NAMES) if path), None)
    if not found:
        raise Missing('there is no chromium')
    return found


class Browser:
    """A page of so many points, until `close`."""

    def __init__(self, width=1500, height=1000):
        path = program()
        self.profile = tempfile.mkdtemp()
        self.left, self.number, self.session = b'', 0, None
        self.events = []
        self.start([path, *FLAGS, *['--no-sandbox'] * (os.getuid() == 0), f'--user-data-dir={self.profile}',
                    f'--window-size={width},{height}', 'about:blank'])
        try:
            targets = self.ask('Target.getTargets')['targetInfos']
            page = next(each['targetId'] for each in targets if each['type'] == 'page')
            self.session = self.ask('Target.attachToTarget', targetId=page, flatten=True)['sessionId']
            for name in ('Page', 'Runtime', 'Log', 'Network'):
                self.ask(f'{name}.enable')
            self.ask('Emulation.setDeviceMetricsOverride', width=width, height=height, deviceScaleFactor=1, mobile=False)
        except (Wrong, OSError) as error:
            self.close()
            raise Missing(f'{os.path.basename(path)} does not start: {error}')

    def start(self, words):
        """Starts the program, which reads at 3 and writes at 4."""
        to_browser, self.writing = os.pipe()
        self.reading, from_browser = os.pipe()

        def hand_over():
            # The ends are put out of the way first.
            high = [os.dup2(end, 100 + place) for place, end in enumerate((to_browser, from_browser))]
            os.dup2(high[0], 3)
            os.dup2(high[1], 4)

        self.child = subprocess.Popen(words, stdin=subprocess.DEVNULL, stdout=subprocess.DEVNULL, stderr=subprocess.DEVNULL, close_fds=False,
                                      preexec_fn=hand_over)
        os.close(to_browser)
        os.close(from_browser)

    def close(self):
        os.close(self.writing)
        os.close(self.reading)
        self.child.terminate()
        self.child.wait()
        shutil.rmtree(self.profile, ignore_errors=True)    # its own children may still write there

    def receive(self, until):
        """The next message."""
        while b'\0' not in self.left:
            rest = until - time.monotonic()
            must(rest > 0 and select.select([self.reading], [], [], rest)[0], 'chromium does not answer')
            more = os.read(self.reading, 2 ** 20)
            must(more, 'chromium ended')
            self.left += more
        message, self.left = self.left.split(b'\0', 1)
        return json.loads(message)

    def ask(self, method, **words):
        """The answer to a question. Events that come before it are kept."""
        self.number += 1
        message = {'id': self.number, 'method': method, 'params': words}
        if self.session:
            message['sessionId'] = self.session
        os.write(self.writing, json.dumps(message).encode() + b'\0')
        until = time.monotonic() + PATIENCE
        while True:
            answer = self.receive(until)
            if answer.get('id') == self.number:
                must('error' not in answer, f'{method}: {answer.get("error")}')
                return answer['result']
            self.events.append(answer)

    def open(self, path):
        """Opens a file, and waits until it is loaded. The answer: how many seconds it took, until the page is drawn."""
        start = time.monotonic()
        self.events = [each for each in self.events if each['method'] != 'Page.loadEventFired']
        self.ask('Page.navigate', url='file://' + os.path.abspath(path))
        while not any(each.get('method') == 'Page.loadEventFired' for each in self.events):
            self.events.append(self.receive(start + PATIENCE))
        self.value('new Promise(done => requestAnimationFrame(() => requestAnimationFrame(() => done(1))))')
        return time.monotonic() - start

    def value(self, expression):
        answer = self.ask('Runtime.evaluate', expression=expression, returnByValue=True, awaitPromise=True)
        must('exceptionDetails' not in answer, f'{expression[:60]}: {str(answer.get("exceptionDetails"))[:200]}')
        return answer['result'].get('value')

    def mouse(self, kind, x, y):
        self.ask('Input.dispatchMouseEvent', type=kind, x=x, y=y, button='none' if kind == 'mouseMoved' else 'left', clickCount=1)

    def click(self, x, y):
        for kind in ('mouseMoved', 'mousePressed', 'mouseReleased'):
            self.mouse(kind, x, y)

    def drag(self, x, y, to):
        self.mouse('mouseMoved', x, y)
        self.mouse('mousePressed', x, y)
        self.mouse('mouseMoved', (x + to) / 2, y)
        self.mouse('mouseReleased', to, y)

    def screenshot(self, path):
        data = base64.b64decode(self.ask('Page.captureScreenshot', format='png')['data'])
        with open(path, 'wb') as file:
            file.write(data)
        return data

    def errors(self):
        """What the console has, of errors and warnings, and requests that are not for the page."""
        self.value('1')
        found = []
        for each in self.events:
            method, words = each.get('method'), each.get('params', {})
            if method == 'Runtime.exceptionThrown':
                found.append(str(words['exceptionDetails'].get('exception', {}).get('description', words))[:200])
            elif method == 'Log.entryAdded' and words['entry']['level'] in ('error', 'warning'):
                found.append(words['entry']['text'])
            elif method == 'Runtime.consoleAPICalled':
                found.append(f'console.{words["type"]}')
            elif method == 'Network.requestWillBeSent' and not words['request']['url'].startswith('file:'):
                found.append(f'asks for {words["request"]["url"][:80]}')
        return found
