"""Unit tests of achdesk_day: python3 -m unittest discover -s deploy/tests -t deploy"""

import sys
from pathlib import Path

TOP = Path(__file__).resolve().parent.parent.parent
sys.path[:0] = [str(TOP / "deploy"), str(TOP / "clients" / "python")]
