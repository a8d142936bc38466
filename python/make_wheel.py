#!/usr/bin/env python3
"""Makes a wheel of the module with libjri in it, and prints its name.

    python/make_wheel.py OUT LIBRARY FAST

OUT is a directory, LIBRARY a shared library for any x86-64, and FAST one for x86-64-v3, which the module loads where the
processor has AVX2. The wheel is for Linux with the C library that they need, and for any Python that pyproject.toml
allows. Takes pip, setuptools and wheel, and no network. With SOURCE_DATE_EPOCH the same sources give the same bytes.
"""

import os
import re
import shutil
import subprocess
import sys
import tempfile

HERE = os.path.dirname(os.path.abspath(__file__))
COMMAND = ["-m", "pip", "wheel", "--quiet", "--no-build-isolation", "--no-deps", "--no-index", "--no-cache-dir"]


def platform_of(*libraries):
    """Returns the platform tag for libraries: it names the minimum version of the C library."""
    versions = []
    for library in libraries:
        with open(library, "rb") as file:
            versions += re.findall(rb"\0GLIBC_2\.(\d+)(?=[.\0])", file.read())
    return f"manylinux_2_{max([5, *map(int, versions)])}_x86_64"


def soname():
    """Returns the name that the module loads."""
    with open(os.path.join(HERE, "src", "jri", "_library.py"), encoding="utf-8") as file:
        return f"libjri.so.0.{re.search(r'^CALLS = ([0-9]+)$', file.read(), re.M)[1]}"


def make(out, library, fast):
    """Makes the wheel, and returns its name."""
    environment = {**os.environ, "JRI_WHEEL_PLATFORM": platform_of(library, fast)}
    with tempfile.TemporaryDirectory() as directory:
        tree, made = os.path.join(directory, "tree"), os.path.join(directory, "made")
        module = os.path.join(tree, "src", "jri")
        ignored = shutil.ignore_patterns("__pycache__")
        shutil.copytree(os.path.join(HERE, "src", "jri"), module, ignore=ignored, copy_function=shutil.copyfile)
        for name in ("pyproject.toml", "setup.py", "README.md"):
            shutil.copyfile(os.path.join(HERE, name), os.path.join(tree, name))
        os.mkdir(os.path.join(module, "x86-64-v3"))
        for path, place in ((library, ""), (fast, "x86-64-v3")):
            shutil.copyfile(path, os.path.join(module, place, soname()))
        subprocess.run([sys.executable, *COMMAND, "--wheel-dir", made, tree], env=environment, check=True)
        (name,) = os.listdir(made)
        os.makedirs(out, exist_ok=True)
        shutil.copyfile(os.path.join(made, name), os.path.join(out, name))
    return name


if __name__ == "__main__":
    if len(sys.argv) != 4:
        sys.exit("usage: python/make_wheel.py OUT LIBRARY FAST")
    print(make(*sys.argv[1:]))
