"""What the tools share: where they lie, and what the package rulercress beside them has for all of its commands."""
import os
import sys

HERE = os.path.dirname(os.path.realpath(__file__))
PYTHON = os.path.join(os.path.dirname(HERE), 'python')
if not os.path.isdir(os.path.join(PYTHON, 'rulercress')):
    sys.exit(f'{os.path.basename(sys.argv[0])}: there is no {PYTHON}/rulercress, of which the tools are made')
sys.path.insert(0, PYTHON)
from rulercress.tools.common import *  # noqa: E402, F401, F403
