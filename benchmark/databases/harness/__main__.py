"""The command line's program, inside its namespaces."""

import sys

from harness.program import main

if __name__ == "__main__":
    sys.exit(main(sys.argv[1:]))
