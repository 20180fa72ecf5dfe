"""`SPEC REPORT` verifies; `replay SPEC SCHEDULE` and `simulate SPEC SCHEDULE` carry out."""
import os
import sys

sys.path[0] = os.path.dirname(os.path.dirname(os.path.abspath(__file__)))

from second.answer import answer  # noqa: E402

if __name__ == "__main__":
    status, text = answer(sys.argv[1:])
    try:
        sys.stdout.write(text)
        sys.stdout.flush()
    except OSError:
        status = 7
    sys.exit(status)
