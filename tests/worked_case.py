"""One worked case of the program."""
from dataclasses import dataclass
from typing import Optional


@dataclass
class Case:
    name: str
    words: list  # the command line
    script: bytes  # standard input
    output: bytes  # wanted on standard output
    error: Optional[bytes]  # wanted on standard error; None: not compared
    status: int  # wanted
