"""The program that the scripts of this folder try."""
import os
import pathlib
import subprocess

from hub_server import PROGRAM, TOP, need


def program():
    """The program of TAF, or that of ./taf, which builds it if there is none."""
    if "TAF" in os.environ:
        return pathlib.Path(os.environ["TAF"]).absolute()
    need(subprocess.run([TOP / "taf", "--version"], stdout=subprocess.DEVNULL).returncode == 0, "there is no program")
    return PROGRAM if PROGRAM.exists() else TOP / "taf"
