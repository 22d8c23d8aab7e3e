"""What pip asks to install this folder: setuptools makes a wheel only where the proved program lies in the package, as
`./show release` has it. Of a checkout that would be a package without a program, so a line says what to do instead."""
import os
import sys

from setuptools import build_meta
from setuptools.build_meta import *  # noqa: F401,F403  an editable install works: its package is the checkout's

HERE = os.path.dirname(os.path.abspath(__file__))


def refuse():
    """Ends pip's question where the package has no program."""
    if not os.path.exists(os.path.join(HERE, "hemtoghai", "MANIFEST.json")):
        sys.exit("hemtoghai: a checkout has no proved program to install. Take the wheel of a release, or make one by "
                 "./show release and install that; in the checkout itself ./show is the command, and "
                 "`pip install -e .` has `import hemtoghai` find it.")


def build_wheel(*given, **more):
    refuse()
    return build_meta.build_wheel(*given, **more)


def prepare_metadata_for_build_wheel(*given, **more):
    refuse()
    return build_meta.prepare_metadata_for_build_wheel(*given, **more)
