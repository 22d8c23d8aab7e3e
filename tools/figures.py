"""The module for shows that are written by programs, under the name that it had: for one release."""
import os, sys
sys.path.insert(0, os.path.join(os.path.dirname(os.path.dirname(os.path.abspath(__file__))), "python"))
from hemtoghai.writing.figures import *
