"""The launcher's entry: `fdbtester` runs this folder by python3, with the words of its call."""

import os
import sys

if sys.version_info < (3, 8):
    # The script runs the program at hand without what this launcher adds.
    os.environ["FDBTESTER_PLAIN"] = "1"
    script = os.path.join(os.path.dirname(os.path.abspath(__file__)), "..", "..", "fdbtester")
    os.execv(script, [script] + sys.argv[1:])

sys.dont_write_bytecode = True

from calls import main  # noqa: E402

main(sys.argv[1:])
