"""Trials of `jri_mend --trees` on directories of photos, for tools/check-mend.

What is to come of a name follows from how its copies were made: the undamaged photo, byte for byte, wherever they differ.
"""

import json
import os
import random
import re
import shutil
import signal
import subprocess
import time

from trials import write


def snapshot(directory):
    """Returns what is below a directory but for parts: the bytes of files, the targets of links, None for directories."""
    found, root = {}, os.fsencode(directory)
    for at, directories, names in os.walk(root):
        for name in [*directories, *names]:
            path = os.path.join(at, name)
            if name.startswith(b".jri-") and name.endswith(b".part"):
                continue
            if os.path.islink(path):
                found[os.path.relpath(path, root)] = os.readlink(path)
            elif os.path.isdir(path):
                found[os.path.relpath(path, root)] = None
            else:
                with open(path, "rb") as file:
                    found[os.path.relpath(path, root)] = file.read()
    return found


def files_of(directory):
    """Returns the names of the files below a directory, as text, and their bytes."""
    return {os.fsdecode(name): data for name, data in snapshot(directory).items() if data is not None}


def plant(directory, files):
    """Makes a directory with these files, and returns its name."""
    os.makedirs(directory, exist_ok=True)
    for name, data in files.items():
        path = os.path.join(os.fsencode(directory), os.fsencode(name))
        os.makedirs(os.path.dirname(path), exist_ok=True)
        write(path, data)
    return directory


class Archive:
    """Copies of an archive, in which photos are damaged in different intervals, and what is to come of each name."""

    def __init__(self, trials, spoil, name, copies, files):
        """`files` has for each name its undamaged photo and the numbers of the copies that are damaged."""
        self.trials, self.name, self.wanted, self.lines = trials, name, {}, {}
        trees = [{} for _ in range(copies)]
        for at, (path, (data, damaged)) in enumerate(files.items()):
            spoilt = spoil(data, max(len(damaged), 1), random.Random(f"{name} {at}"))
            for k, tree in enumerate(trees):
                tree[path] = spoilt[damaged.index(k)] if k in damaged else data
            if damaged:
                self.wanted[path] = data
            self.lines[path] = "mended" if damaged else "equal"
        self.trees = [plant(trials.path(f"{name} {k}"), tree) for k, tree in enumerate(trees)]
        self.target = plant(trials.path(f"{name} out"), {})
        self.before = [snapshot(tree) for tree in self.trees]

    def words(self, *words):
        return ["--trees", *words, "-o", self.target, *self.trees]

    def see_files(self, what, wanted):
        found = files_of(self.target)
        self.trials.see(f"{self.name}, {what}: the files", found == wanted, f"{sorted(found)} for {sorted(wanted)}")
        self.trials.see(f"{self.name}, {what}: the copies", [snapshot(tree) for tree in self.trees] == self.before, "changed")

    def see_lines(self, what, output, counts):
        """Sees the verdict of each name, in the order of jri_check -r, and the counts."""
        *lines, last = output.decode().splitlines() or [""]
        found = [(line.split(": ")[0], re.split(": |,", line)[1]) for line in lines]
        order = sorted(self.lines, key=lambda path: path.split("/"))
        self.trials.see(f"{self.name}, {what}: the lines", found == [(path, self.lines[path]) for path in order], output.decode())
        self.trials.see(f"{self.name}, {what}: the counts", last == counts, last)


def try_archives(trials, photos, spoil):
    """Two and three copies: each photo whose copies differ is restored, a second run does nothing, and equal ones are copied."""
    one, two, three, four = photos
    for copies in (2, 3):
        files = {
            "a.jpg": (one, [0, 1]),
            "b.JPEG": (two, []),
            "c/a.jpe": (three, [1]),
            "c/d/a.jfif": (four, [0]),
            "c/d.jpg": (two, [0, 1]),
            "c.jpg": (three, []),
            "z.jpg": (one, [0, 1]),
        }
        archive = Archive(trials, spoil, f"archive of {copies}", copies, files)
        plant(archive.trees[0], {"a.txt": b"text", "no/b.jpg.png": b"text"})
        os.symlink("a.jpg", os.path.join(archive.trees[0], "link.jpg"))
        os.symlink("c", os.path.join(archive.trees[1], "linked"))
        archive.before = [snapshot(tree) for tree in archive.trees]
        status, output, errors = trials.mend(*archive.words())
        trials.see(f"{archive.name}: the status", (status, errors) == (0, b""), f"{status}, {errors.decode(errors='replace')}")
        archive.see_files("once", archive.wanted)
        archive.see_lines("once", output, "5 mended, 2 equal")
        archive.lines.update(dict.fromkeys(archive.wanted, "already there"))
        status, output, _ = trials.mend(*archive.words())
        trials.see(f"{archive.name}: the status of a second run", status == 0, f"{status}")
        archive.see_files("twice", archive.wanted)
        archive.see_lines("twice", output, "0 mended, 2 equal, 5 already there")
        status, output, _ = trials.mend(*archive.words("--copy-equal", "--json"))
        copied = [line["file"] for line in map(json.loads, output.splitlines()) if line.get("copied")]
        trials.see(f"{archive.name}: what is copied", (status, copied) == (0, ["b.JPEG", "c.jpg"]), output.decode())
        archive.see_files("copied", {path: data for path, (data, _) in files.items()})


def try_odd_names(trials, photos, spoil):
    """Names that one copy has alone, that are no text, of directories and files at once, and files that cannot be read."""
    data, other, *_ = photos
    one, two = spoil(data, 2, random.Random(7))
    bad, is_root = os.fsdecode(b"caf\xe9"), os.geteuid() == 0
    a = plant(trials.path("odd a"), {
        "both.jpg": one, "kind.jpg/x.jpg": data, "only.jpg": one, "strange.jpg": data, f"{bad}.jpg": one, f"{bad}.txt": one,
        f"{bad}/x.jpg": one, "shut/x.jpg": one, "text.jpg": b"no picture", "line\nfeed.jpg": one, "cut.jpg": data, "full.jpg": one,
    })
    b = plant(trials.path("odd b"), {
        "both.jpg": two, "kind.jpg": data, "strange.jpg": other, f"{bad}.jpg": two, "shut/x.jpg": two, "text.jpg": data,
        "line\nfeed.jpg": two, "cut.jpg": data[: len(data) // 2], "full.jpg": two,
    })
    target = plant(trials.path("odd out"), {"full.jpg": b"mine"})
    before = [snapshot(it) for it in (a, b)]
    os.chmod(os.path.join(b, "shut"), 0)
    status, output, errors = trials.mend("--trees", "--copy-equal", "-o", target, a, b)
    os.chmod(os.path.join(b, "shut"), 0o755)
    printed, found = output.decode(), files_of(target)
    wanted = {"both.jpg": data, "kind.jpg": data, "only.jpg": one, "line\nfeed.jpg": data, "cut.jpg": data, "full.jpg": b"mine"}
    wanted["shut/x.jpg"] = data if is_root else one
    trials.see("odd names: the status", (status, errors) == (4, b""), f"{status}, {errors.decode(errors='replace')}")
    trials.see("odd names: the files", found == wanted, f"{sorted(found)}")
    trials.see("odd names: the copies", [snapshot(it) for it in (a, b)] == before, "changed")
    lines = [
        "both.jpg: mended, ",
        "kind.jpg: equal, copied, in 1 of 2 trees\n",
        "kind.jpg/x.jpg: cannot be written: ",
        "only.jpg: equal, copied, in 1 of 2 trees\n",
        "strange.jpg: copy 2: its header is not that of the first copy\n",
        "caf?.jpg: copy 1: cannot be read: its name is not UTF-8\n",
        "caf?.txt: skipped: its name is not UTF-8\n",
        "caf?: skipped: its name is not UTF-8\n",
        "text.jpg: copy 1: refused 1: ",
        "line?feed.jpg: mended, ",
        "cut.jpg: mended, ",
        "full.jpg: already there\n",
        "shut/x.jpg: mended, " if is_root else "shut: copy 2: cannot be read: permission denied\n",
    ]
    for line in lines:
        trials.see(f"odd names: {line.strip()}", f"\n{line}" in f"\n{printed}", printed)
    objects = [json.loads(line) for line in trials.mend("--trees", "--json", "-o", target, a, b)[1].splitlines()[:-1]]
    names = {os.fsencode(it["file"]) for it in objects}
    trials.see("odd names: names come back", {b"caf\xe9.jpg", b"caf\xe9.txt", b"line\nfeed.jpg"} <= names, f"{names}")


def try_refusals(trials, photos, spoil):
    """Directories that are not mended: nothing is made, and nothing changes."""
    a, b = (plant(trials.path(f"tree {k}"), {"x.jpg": copy, "in/x.jpg": copy}) for k, copy in enumerate(spoil(photos[0], 2, random.Random(1))))
    target, file = plant(trials.path("tree out"), {}), os.path.join(a, "x.jpg")
    os.symlink(a, trials.path("tree link"))
    expected = [
        ("no target", [a, b], 2),
        ("standard output", ["-o", "-", a, b], 2),
        ("one directory", ["-o", target, a], 2),
        ("65 directories", ["-o", target, *[a] * 65], 2),
        ("a file", ["-o", target, a, file], 2),
        ("no directory", ["-o", target, a, trials.path("tree none")], 3),
        ("the target is not there", ["-o", trials.path("tree none"), a, b], 4),
        ("the target is a file", ["-o", file, a, b], 2),
        ("the target is a copy", ["-o", b, a, b], 2),
        ("the target is a copy by a link", ["-o", trials.path("tree link"), a, b], 2),
        ("the target is in a copy", ["-o", os.path.join(a, "in"), a, b], 2),
        ("the target is around a copy", ["-o", a, os.path.join(a, "in"), b], 2),
        ("the target is around both", ["-o", trials.path("."), a, b], 2),
    ]
    before = [snapshot(it) for it in (a, b, target)]
    for name, words, wanted in expected:
        status, output, errors = trials.mend("--trees", *words)
        trials.see(f"directories, {name}", (status, output) == (wanted, b"") and errors, f"{status}, {output}, {errors.decode(errors='replace')}")
        trials.see(f"directories, {name}: nothing is changed", [snapshot(it) for it in (a, b, target)] == before, "changed")
    status, output, _ = trials.mend("--trees", "-o", target, *[a] * 64)
    trials.see("64 directories", (status, output.splitlines()[-1:]) == (0, [b"0 mended, 2 equal"]), f"{status}, {output.decode()}")
    with open("/dev/full", "wb") as lines:
        ran = subprocess.run([trials.program, "--trees", "-o", target, a, b], stdout=lines, stderr=subprocess.DEVNULL, check=False)
    trials.see("lines that cannot be written", ran.returncode == 4, f"{ran.returncode}")


def try_killed(trials, data, spoil, seeds):
    """Kills runs at many moments: each file that is there is whole, and a further run leaves what one run leaves."""
    archive = Archive(trials, spoil, "killed archive", 2, {f"{k % 3}/{k}.jpg": (data, [0, 1]) for k in range(12)})
    start = time.monotonic()
    trials.mend(*archive.words())
    seconds = time.monotonic() - start
    archive.see_files("not killed", archive.wanted)
    for k in range(4 * seeds):
        shutil.rmtree(archive.target)
        plant(archive.target, {})
        running = subprocess.Popen([trials.program, *archive.words()], stdout=subprocess.DEVNULL)
        time.sleep(seconds * k / (3 * seeds))
        running.send_signal(signal.SIGKILL)
        running.wait()
        found = files_of(archive.target)
        trials.see(f"killed archive, {k}: whole files", all(archive.wanted.get(path) == it for path, it in found.items()), f"{sorted(found)}")
        status, output, _ = trials.mend(*archive.words())
        wanted = f"{12 - len(found)} mended" + (f", {len(found)} already there" if found else "")
        trials.see(f"killed archive, {k}: the further run", (status, output.decode().splitlines()[-1]) == (0, wanted), f"{status}, {output.decode()}")
        archive.see_files(f"killed, {k}", archive.wanted)


def try_all(trials, photos, large, spoil, seeds):
    """Makes all trials with these photos, the large one for runs that are killed."""
    try_archives(trials, photos, spoil)
    try_odd_names(trials, photos, spoil)
    try_refusals(trials, photos, spoil)
    try_killed(trials, large, spoil, seeds)
