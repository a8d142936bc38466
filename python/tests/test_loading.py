"""The library that the module loads, its declarations, and its version."""

import importlib.util
import os
import re
import shutil
import subprocess
import sys

import _cffi_backend
import pytest

import jri
import jri._loaded

PYTHON = os.path.join(os.path.dirname(os.path.abspath(__file__)), "..")


def read(*names):
    with open(os.path.join(PYTHON, *names), encoding="utf-8") as file:
        return file.read()


def interface():
    """Returns the number of the interface that jri.h states."""
    (stated,) = re.findall(r"^#define JRI_VERSION (\d+)$", read("..", "include", "jri.h"), re.M)
    return int(stated)


def imported(library, code="import jri"):
    """Runs code in a Python of its own with this JRI_LIBRARY, and returns what it writes to both streams."""
    environment = {**os.environ, "JRI_LIBRARY": str(library)}
    streams = {"stdout": subprocess.PIPE, "stderr": subprocess.STDOUT}
    return subprocess.run([sys.executable, "-c", code], env=environment, check=False, **streams).stdout.decode()


def test_one_interface():
    assert jri.version() == interface()


def test_one_version():
    (stated,) = re.findall(r'^version = "(.*)"$', read("pyproject.toml"), re.M)
    (programs,) = re.findall(r'^ +"(\S+) \(built in', read("..", "crates", "jr_base", "src", "version.rt"), re.M)
    assert jri.__version__ == stated == programs == jri._loaded.build_text().split(" ")[1]


def test_the_declarations_are_compiled(tmp_path):
    spec = importlib.util.spec_from_file_location("make_ffi", os.path.join(PYTHON, "make_ffi.py"))
    maker = importlib.util.module_from_spec(spec)
    spec.loader.exec_module(maker)
    maker.make(str(tmp_path / "made"))
    assert (tmp_path / "made").read_text() == read("src", "jri", "_ffi.py")


def test_shows_the_public_names():
    assert dir(jri) == sorted([*jri.__all__, "__version__"]) and all(hasattr(jri, name) for name in dir(jri))


def test_an_import_parses_nothing():
    code = "import sys, numpy; before = set(sys.modules); import jri; print(*sorted(set(sys.modules) - before))"
    loaded = imported(jri._loaded._path(), code).split()
    assert "jri" in loaded and "_cffi_backend" in loaded
    assert not {"cffi", "pycparser", "concurrent.futures", "numpy.typing"} & set(loaded)


def compiled(tmp_path, code):
    if shutil.which("cc") is None:
        pytest.skip("no C compiler")
    path = tmp_path / jri._loaded._SONAME
    subprocess.run(["cc", "-shared", "-fPIC", "-x", "c", "-o", str(path), "-"], input=code.encode(), check=True)
    return path


def test_a_library_that_is_not_there():
    printed = imported("/nowhere/libjri.so")
    assert f"ImportError: cannot load /nowhere/libjri.so: install the package libjri0.{interface()}" in printed
    assert "tools/install" in printed and "JRI_LIBRARY" in printed


def test_a_library_that_is_another_one():
    assert f"is not libjri: install the package libjri0.{interface()}" in imported(_cffi_backend.__file__)


def test_a_library_of_another_version(tmp_path):
    path = compiled(tmp_path, "unsigned jri_version(void) { return 2; }")
    assert f"ImportError: {path} has version 2 of the interface, not {interface()}: install" in imported(path)


def test_a_library_without_a_call(tmp_path):
    path = compiled(tmp_path, f"unsigned jri_version(void) {{ return {interface()}; }}")
    printed = imported(path)
    assert f"ImportError: {path} lacks a call: install" in printed and "jri_" in printed


def test_a_library_in_the_modules_directory(tmp_path):
    shutil.copytree(os.path.join(PYTHON, "src", "jri"), tmp_path / "jri")
    any_path = tmp_path / "jri" / jri._loaded._SONAME
    fast_path = tmp_path / "jri" / "x86-64-v3" / jri._loaded._SONAME
    fast_path.parent.mkdir()
    code = f"import sys; sys.path.insert(0, {str(tmp_path)!r}); import jri._loaded; print(jri._loaded._path())"
    shutil.copy(jri._loaded._path(), any_path)
    assert imported("", code).strip() == str(any_path)
    shutil.copy(jri._loaded._path(), fast_path)
    assert imported("", code).strip() == str(fast_path if jri._loaded._has_v3() else any_path)


@pytest.mark.parametrize(
    "described, has_v3",
    [
        ("processor : 0\nflags\t\t: fpu sse4_2 avx movbe abm f16c fma bmi1 avx2 bmi2 avx512f\n", True),
        ("processor : 0\nflags\t\t: fpu sse4_2 avx movbe abm f16c fma bmi1 bmi2\n", False),
        ("processor : 0\nflags : avx\nflags : avx movbe abm f16c fma bmi1 avx2 bmi2\n", False),
        ("processor : 0\nFeatures : fp asimd\n", False),
        ("", False),
    ],
)
def test_processors_for_the_faster_library(tmp_path, described, has_v3):
    path = tmp_path / "cpuinfo"
    path.write_text(described)
    assert jri._loaded._has_v3(str(path)) == has_v3 and not jri._loaded._has_v3("/nowhere/cpuinfo")
