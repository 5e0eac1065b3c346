"""`python3 -m rulercress COMMAND ..` is `rulercress COMMAND ..`."""
from .commands import main

main()
