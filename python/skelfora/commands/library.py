"""skelfora library: the proved library as an archive for C and Rust, and as a shared library for what loads one, such as Python."""
from __future__ import annotations

from ..build import ARCHIVE, SHARED, build_library
from ..command import Command, Parser, write

ABOUT = f"""\
Proves the crate `port` and all that it uses, and makes of it, for this machine's processor,

  {ARCHIVE}          an archive, to link into C or Rust
  {SHARED}     the same as a shared library, for Python's ctypes and the like

  skelfora library

docs/PORT-OTHER.md says how to call them, docs/skelfora.h declares the functions."""


def main(words: list[str]) -> int:
    Parser("library", description=ABOUT).parse_args(words)
    build_library()
    write(f"{ARCHIVE}\n{SHARED}\n".encode())
    return 0


COMMAND = Command("library", main)
