"""The program `resume` by itself.

    python3 oracle/resume.py < FILE
"""

import sys

from program import resume


if __name__ == '__main__':
    sys.stdout.buffer.write(resume(sys.stdin.buffer.read()))
