"""The library of the scripts beside the program: its modules are those of tools/farmkit."""

import pathlib

__path__ = [str(pathlib.Path(__file__).resolve().parents[2] / "tools" / "farmkit")]
