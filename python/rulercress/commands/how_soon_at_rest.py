"""When does a home come to rest? Plays random homes with a history, after which nothing happens, and says how long they take.

  tools/how-soon-at-rest -n 1000
  tools/how-soon-at-rest -n 20 --only power-cut --each
  tools/how-soon-at-rest --script power-cut 17 > home.script
  tools/how-soon-at-rest -n 100000 --shard 1/50 > part1, ..; tools/how-soon-at-rest --join part1 ..

A home has 2 to 12 routers on a tree of links, with further cables and one to three uplinks. After its history no copy is
lost, and all routers tick each 100 ms for 150 seconds. It is at rest from the moment on after which `audit` finds each running
router settled and quiet at each look. It is looked at each second, and each 100 ms in the last second in which it is not.
`never` counts the homes that are not at rest after the 150 seconds. Histories that take long are played with a fifth of the seeds
or fewer, the first ones. 100 seeds take about five minutes of processor time.

The text is the same on each machine. With --each or --shard a line `HISTORY SEED SECONDS` stands before it for each home. The
status is 0; with 1 a line says what is wrong.
"""
from ..tools import resting


def main(words=None):
    return resting.main(__doc__, words)
