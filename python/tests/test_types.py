"""The types that checkers of callers see."""

import os
import subprocess
import sys

import pytest

SOURCES = os.path.join(os.path.dirname(os.path.abspath(__file__)), "..", "src")
CALLER = """
import jri

reveal_type(jri.decode("photo.jpg").shape)
reveal_type(jri.check(b"").verdict)
for first, part in jri.lines(b"", 8):
    reveal_type(first)
for path, health in jri.check_many(["photo.jpg"]):
    reveal_type(health)
with jri.Stream(layout="bgr", out=jri.decode("photo.jpg", layout="bgr", allow_damaged=False)) as stream:
    reveal_type(stream.feed(b"")[0].pixels)
reveal_type(jri.load_index("photo.places", b"").lines(0, 8))
try:
    reveal_type(jri.__version__)
except jri.UnsupportedError as error:
    reveal_type(error.number)
jri.decode(7)
"""


def checked(tmp_path, *words):
    pytest.importorskip("mypy")
    command = [sys.executable, "-m", "mypy", "--strict", "--ignore-missing-imports", "--cache-dir", str(tmp_path), *words]
    return subprocess.run(command, stdout=subprocess.PIPE, cwd=SOURCES, check=False).stdout.decode()


def test_the_module_has_types_throughout(tmp_path):
    assert "no issues found in 8 source files" in checked(tmp_path, "jri")


def test_a_caller_sees_them(tmp_path):
    caller = tmp_path / "caller.py"
    caller.write_text(CALLER)
    printed = [line.split(": ", 1)[1] for line in checked(tmp_path, str(caller)).splitlines() if line.startswith(str(caller))]
    assert "tuple[builtins.int, ...]" in printed[0].lower()
    assert "Union[Literal['sound'], Literal['damaged'], Literal['refused'], Literal['unsupported']]" in printed[1]
    assert '"builtins.int"' in printed[2]
    assert "Union[jri.Health, builtins.OSError]" in printed[3]
    assert all("numpy.ndarray[Any, numpy.dtype[" in line for line in printed[4:6])
    assert '"builtins.str"' in printed[6] and '"builtins.int"' in printed[7]
    assert printed[8].startswith('error: Argument 1 to "decode" has incompatible type "int"') and len(printed) == 9
