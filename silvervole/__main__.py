"""The command silvervole, as `python3 -m silvervole`."""
import sys

from silvervole.main import main

if __name__ == "__main__":
    sys.exit(main())
