"""Starts the commands around the proved program. Called by the file smack at the root."""

import sys

sys.dont_write_bytecode = True

from smack_tools.commands import main  # noqa: E402

if __name__ == "__main__":
    sys.exit(main(sys.argv[1:]))
