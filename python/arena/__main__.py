"""`python3 -m arena` is the command `arena`."""
import sys

from arena.command import main

sys.exit(main())
