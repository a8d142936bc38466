"""The wheel that has libjri in it, installed where nothing says where a library is."""

import importlib.util
import os
import subprocess
import sys

import numpy
import pytest
from conftest import by_djpeg

import jri._loaded

MAKER = os.path.join(os.path.dirname(os.path.abspath(__file__)), "..", "make_wheel.py")
CALLER = """
import sys
import jri, jri._loaded
assert jri._loaded._path().startswith(sys.prefix), jri._loaded._path()
assert ("x86-64-v3" in jri._loaded._path()) == jri._loaded._has_v3(), jri._loaded._path()
sys.stdout.buffer.write(jri.decode(sys.stdin.buffer.read()).tobytes())
"""


def run(*words, **streams):
    environment = {name: value for name, value in os.environ.items() if name not in ("JRI_LIBRARY", "PYTHONPATH")}
    return subprocess.run(words, env=environment, stdout=subprocess.PIPE, check=True, **streams).stdout


def test_the_wheel_decodes_without_an_installed_library(tmp_path, photo):
    if None in map(importlib.util.find_spec, ("pip", "setuptools", "wheel", "venv")):
        pytest.skip("pip, setuptools, wheel or venv is missing")
    library = jri._loaded._path()
    name = run(sys.executable, MAKER, tmp_path / "out", library, library).decode().strip()
    assert name.startswith(f"jri-{jri.__version__}-py3-none-manylinux_2_")
    python = tmp_path / "empty" / "bin" / "python"
    run(sys.executable, "-m", "venv", "--system-site-packages", "--without-pip", tmp_path / "empty")
    run(python, "-m", "pip", "install", "--quiet", "--no-index", "--no-cache-dir", tmp_path / "out" / name)
    pixels = numpy.frombuffer(run(python, "-c", CALLER, input=photo), numpy.uint8)
    assert numpy.array_equal(pixels, by_djpeg(photo).reshape(-1))
