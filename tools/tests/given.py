"""The program that the tests try: the one that was given, or is built. No test builds it.

  from given import PROGRAM     which companions that a test starts take too; without one nothing
                                is tried, and a plain sentence says so"""
import os
import sys
from pathlib import Path

sys.path.insert(0, str(Path(__file__).resolve().parents[1]))
import companion

try:
    PROGRAM = os.environ["LSPACE"] = companion.find_program()
except companion.Trouble as trouble:
    sys.exit(f"nothing is tried: {trouble}")
