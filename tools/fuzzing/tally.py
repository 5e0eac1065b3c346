"""What `tools/fuzz` counts, the table of it, and the files of what failed."""
import collections
import hashlib
import json
import os

from common import Problem
from fuzzing import faults, runs


class Row:
    """The runs of one form."""

    def __init__(self):
        self.runs = self.late = self.failed = 0
        self.statuses = collections.Counter()
        self.seconds = self.memory = 0

    def add(self, result, wrong):
        self.runs += 1
        self.late += result.slow
        self.failed += bool(wrong)
        self.statuses['ended' if result.slow else result.status] += 1
        self.seconds = max(self.seconds, result.seconds)
        self.memory = max(self.memory, result.memory)

    def join(self, other):
        self.runs, self.late, self.failed = self.runs + other.runs, self.late + other.late, self.failed + other.failed
        self.statuses += other.statuses
        self.seconds, self.memory = max(self.seconds, other.seconds), max(self.memory, other.memory)

    def columns(self):
        by_status = ' '.join(f'{status}:{count}' for status, count in sorted(self.statuses.items(), key=str))
        return [str(self.runs), by_status, f'{self.seconds:.2f} s', f'{self.memory / runs.MB:.1f} MB', str(self.failed)]


def lines(rows):
    """The table: what ran, runs, how many ended with which status, the slowest, the greatest memory, failures."""
    heads = ['form', 'runs', 'by status', 'slowest', 'memory', 'failed']
    table = [heads] + [[name, *row.columns()] for name, row in rows.items()]
    total = Row()
    for row in rows.values():
        total.join(row)
    table.append(['all', *total.columns()])
    widths = [max(len(line[place]) for line in table) for place in range(len(heads))]
    return ['  '.join(word.ljust(width) for word, width in zip(line, widths)).rstrip() for line in table]


def keep(case, wrong, folder):
    """Writes a case that failed, so that `--again` can run it. Its path."""
    os.makedirs(folder, exist_ok=True)
    faulty = case if isinstance(case, faults.Faulty) else None
    plain = faulty.case if faulty else case
    told = {'form': plain.form, 'words': plain.words, 'data': plain.data.decode('latin-1'), 'also': plain.also, 'wrong': wrong}
    if faulty:
        told.update(fault=list(faulty.fault), text=faulty.text.decode('latin-1'), status=faulty.status)
    text = json.dumps(told, indent=1)
    path = os.path.join(folder, f'{plain.form}-{hashlib.sha256(text.encode()).hexdigest()[:9]}.json')
    with open(path, 'w', encoding='utf-8') as file:
        file.write(text)
    return path


def kept(path):
    """The case of such a file."""
    try:
        with open(path, encoding='utf-8') as file:
            told = json.load(file)
        case = runs.Case(told['form'], told['words'], told['data'].encode('latin-1'), told['also'])
        if 'fault' not in told:
            return case
        return faults.Faulty(case, faults.Fault(*told['fault']), told['text'].encode('latin-1'), told['status'])
    except (ValueError, KeyError, TypeError, AttributeError):
        raise Problem(f'{path} is no file that this tool wrote')
