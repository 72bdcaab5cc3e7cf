"""Readers of what other tools write, a module for each format, and the lines that candump would have written of it.

A reader takes a file and a `Tally`. It gives the frames, in the order of the file, and counts in the tally what it leaves
out: nothing is lost in silence. A file that ends in the middle, or that its format does not explain, raises `Fault`
behind the frames before.
"""

from .frames import Fault, Frame, Tally, interface_of, lines_of, shown
from .messages import Missing, frames as frames_of_messages
from .opened import HEAD, Log, decides, is_for_the_program

__all__ = [
    "Fault", "Frame", "HEAD", "Log", "Missing", "Tally", "decides", "frames_of_messages", "interface_of", "is_for_the_program",
    "lines_of", "shown",
]
