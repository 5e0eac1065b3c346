"""Network namespaces for the checks that send on links: what runs in them, and the links between them, is gone at the end."""
import os
import subprocess

from checks.helpers import Missing


class Namespaces:
    """Network namespaces, each under a letter."""

    def __init__(self, letters, mark=''):
        self.names = {letter: f'hncp-{os.getpid()}{mark}-{letter}' for letter in letters}
        self.running = []

    def __enter__(self):
        try:
            for letter in self.names:
                self.ip('netns', 'add', self.names[letter])
                self.inside(letter, 'sh', '-c', 'echo 0 > /proc/sys/net/ipv6/conf/default/accept_dad').communicate()
                self.ip('-n', self.names[letter], 'link', 'set', 'lo', 'up')
            self.begin()
        except BaseException:
            self.__exit__()
            raise
        return self

    def begin(self):
        """What is made at the beginning, for those that want more."""

    def join(self, one, name, other, other_name):
        """A link between two namespaces, with these names of its ends."""
        self.ip('link', 'add', name, 'netns', self.names[one], 'type', 'veth', 'peer', 'name', other_name, 'netns', self.names[other])
        for letter, interface in ((one, name), (other, other_name)):
            self.ip('-n', self.names[letter], 'link', 'set', interface, 'up')

    @staticmethod
    def ip(*words):
        done = subprocess.run(['ip', *words], stdout=subprocess.PIPE, stderr=subprocess.PIPE)
        if done.returncode != 0:
            raise Missing(f'ip {" ".join(words)}: {done.stderr.decode("utf-8", "replace").strip()}')

    def inside(self, letter, *words, output=subprocess.PIPE, **more):
        """A program in one of the namespaces."""
        made = subprocess.Popen(['ip', 'netns', 'exec', self.names[letter], *words], stdin=subprocess.DEVNULL, stdout=output,
                                stderr=output, **more)
        self.running.append(made)
        return made

    def __exit__(self, *_):
        for each in self.running:
            if each.poll() is None:
                each.terminate()
            try:
                each.communicate(timeout=10)
            except subprocess.TimeoutExpired:
                each.kill()
                each.communicate()
        for name in self.names.values():
            subprocess.run(['ip', 'netns', 'del', name], stdout=subprocess.PIPE, stderr=subprocess.PIPE)
