"""The tests, as a package of `unittest`: `python3 -m tests --list` lists them (tests/__main__.py)."""
import pathlib
import sys

sys.dont_write_bytecode = True
TOP = pathlib.Path(__file__).resolve().parent.parent
for folder in ("tools", "bench"):
    sys.path.append(str(TOP / folder))
# (the model visits a cached tree by recursion)
sys.setrecursionlimit(10_000)
