"""Shows that shared libraries compute komihash."""
import sys
from report import main

if __name__ == '__main__':
    sys.exit(main(__doc__))
