"""What the tools share: the repository's paths, its programs, files, and one way to report a check."""

import os
import subprocess

TOOLS = os.path.dirname(os.path.abspath(__file__))
ROOT = os.path.dirname(TOOLS)
# Seconds after which a program is stopped.
SECONDS = 60
DJPEG = ["djpeg", "-dct", "int", "-nosmooth", "-pnm"]
# A Python that has what python/README.md names.
PYTHON = os.environ.get("PYTHON", "/usr/bin/python3")


def program_path(name):
    """Returns the path of a program of this repository."""
    return os.path.join(ROOT, "crates", name, "out", name)


def build(*names):
    """Builds programs, unless they are built."""
    for name in names:
        subprocess.run([os.path.join(TOOLS, "build-jri"), name], check=True)


def build_library():
    """Builds libjri, unless it is built."""
    subprocess.run([os.path.join(TOOLS, "build-library")], check=True, stdout=subprocess.DEVNULL)


def with_module():
    """Returns the environment in which Python has the module over the library that is built here."""
    paths = {"JRI_LIBRARY": os.path.join(ROOT, "crates", "jri_c", "out", "libjri.so"), "PYTHONPATH": os.path.join(ROOT, "python", "src")}
    return {**os.environ, **paths, "PYTHONDONTWRITEBYTECODE": "1"}


def run(words, data=None, **how):
    """Returns the status, the output and the errors of a program, whose standard input has the given bytes."""
    how = {"timeout": SECONDS, **({"stdin": subprocess.DEVNULL} if data is None else {"input": data}), **how}
    done = subprocess.run(words, stdout=subprocess.PIPE, stderr=subprocess.PIPE, check=False, **how)
    return done.returncode, done.stdout, done.stderr


def read(path):
    """Returns the bytes of a file, or None if there is no such file."""
    if not os.path.isfile(path):
        return None
    with open(path, "rb") as file:
        return file.read()


def write(path, data, mode=None):
    """Writes a file, with these permissions if they are given, and returns its path."""
    with open(path, "wb") as file:
        file.write(data)
    if mode is not None:
        os.chmod(path, mode)
    return path


def given_files(names):
    """Yields the names and the bytes of files."""
    for name in names:
        with open(name, "rb") as file:
            yield name, file.read()


class Trials:
    """Reports checks, one line each or only those that fail, and counts them."""

    def __init__(self, shows_all=True):
        self.shows_all, self.tried, self.wrong = shows_all, 0, 0

    def see(self, name, is_right, found=""):
        """Reports whether a check holds, and what was found if it does not."""
        self.tried += 1
        self.wrong += not is_right
        if not is_right:
            print(f"WRONG: {name}: {found}" if found else f"WRONG: {name}", flush=True)
        elif self.shows_all:
            print(f"seen: {name}", flush=True)

    def expect(self, name, found, wanted):
        """Reports whether what was found is what was wanted."""
        self.see(name, found == wanted, f"{found} instead of {wanted}")

    def conclude(self):
        """Prints the numbers of checks, and returns the exit status: 1 if one failed."""
        print(f"{self.tried} checks, {self.wrong} wrong")
        return 1 if self.wrong else 0
