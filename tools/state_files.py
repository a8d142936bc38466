"""Trials of jri_check --state and --verify, which tools/compare-check runs, each in a directory of its own."""

import fcntl
import hashlib
import json
import os
import signal
import subprocess

from trials import read, run, write

FRONT = b"jri_check state 1\n"
REFUSED = "cannot use the state file: "


def check_value(line):
    """FNV-1a of 32 bits."""
    value = 0x811C9DC5
    for byte in line:
        value = ((value ^ byte) * 0x01000193) & 0xFFFFFFFF
    return value


def line_of(name, state):
    """The line that a file has in a state file."""
    with open(name, "rb") as file:
        digits = hashlib.sha256(file.read()).hexdigest()
    found = os.stat(name)
    seconds, nanos = divmod(found.st_mtime_ns, 10**9)
    line = f'{digits} {found.st_size} {seconds}.{nanos:09} {state} "{name}"'.encode()
    return line + b" %08x\n" % check_value(line)


def make_files(directory, data, many):
    """Sound and damaged files by turns, and what each is."""
    names = [os.path.join(directory, f"{number:05}.jpg") for number in range(many)]
    states = ["damaged" if number % 3 == 0 else "sound" for number in range(many)]
    for name, state in zip(names, states):
        write(name, data[: len(data) * 2 // 3] + b"\xff\xd9" if state == "damaged" else data)
    return names, states


def unchanged(names, states):
    return "".join(f"{name}: unchanged, {state}\n" for name, state in zip(names, states)).encode()


def check_of(line):
    """The end of the line of a record."""
    return b" %08x" % check_value(line[:-9])


def records(trials, directory, data):
    """What is recorded, a second run, and verifications of a file of which a byte is flipped."""
    names, states = make_files(directory, data, 60)
    state = os.path.join(directory, "state")
    plain, status = trials.check(names)
    trials.expect("a first run", trials.check(["--state", state, *names]), (plain, status))
    wanted = FRONT + b"".join(line_of(name, it) for name, it in zip(names, states))
    trials.expect("records", read(state), wanted)
    trials.expect("a second run", trials.check(["--state", state, *names]), (unchanged(names, states), status))
    trials.expect("a verification", trials.check(["--state", state, "--verify", *names]), (plain, status))
    found = os.stat(names[1])
    flipped = bytearray(read(names[1]))
    flipped[-5] ^= 1
    write(names[1], bytes(flipped))
    os.utime(names[1], ns=(found.st_atime_ns, found.st_mtime_ns))
    for number in range(2):
        printed, status = trials.check(["--json", "--state", state, "--verify", *names])
        changed = [line["file"] for line in map(json.loads, printed.splitlines()) if line["is"] == "changed"]
        trials.expect(f"a flipped byte, {number}", (changed, status), ([names[1]], 1))
    trials.expect("records after that", read(state), wanted)
    os.utime(names[1], ns=(found.st_atime_ns, found.st_mtime_ns + 1))
    printed, _ = trials.check(["--state", state, *names])
    trials.expect("a new version", (printed.count(b"unchanged"), read(state)[: len(wanted)] == wanted, read(state).count(b"\n")), (59, True, 62))


def versions(trials, directory, data):
    """Verifications of a directory of which a file has other bytes and another time, one only another time, and one is gone."""
    inner = os.path.join(directory, "in")
    os.mkdir(inner)
    names, _ = make_files(inner, data, 6)
    state = os.path.join(directory, "state")
    trials.check(["-r", "--state", state, inner])
    write(names[1], read(names[4])[:-2] + b"\xff\xd9")
    os.utime(names[1], ns=(0, 10**18))
    before = read(names[1])
    write(names[2], before + b"\0")
    os.utime(names[4], ns=(0, 10**18))
    os.remove(names[5])
    for words in ([], ["--strict"]):
        printed, status = trials.check(["-r", "-q", *words, "--verify", "--state", state, inner])
        found = [line.split(": ", 1) for line in printed.decode().splitlines()]
        wanted = [(names[2], "new version, sound"), (names[5], "missing")] if not words else [(names[5], "missing")]
        lines = [(name, it[: len(want[1])]) for (name, it), want in zip([it for it in found if "damaged" not in it[1]], wanted)]
        trials.expect(f"versions {words}", (lines, len(found), status), (wanted, len(wanted) + 2, 1))
    for name in (names[0], names[3]):
        os.remove(name)
    trials.expect("sound files", trials.check(["-r", "--verify", "--state", state, inner])[1], 0)
    trials.expect("sound files, strict", trials.check(["-r", "--verify", "--strict", "--state", state, inner])[1], 6)
    trials.expect("another directory", trials.check(["-r", "--verify", "--strict", "--state", state, inner + "/."])[1], 0)


def cuts(trials, directory, data):
    """State files that are cut off at each byte."""
    names, states = make_files(directory, data, 2)
    state = os.path.join(directory, "cut")
    _, status = trials.check(["--state", state, *names])
    whole = read(state)
    for end in range(len(whole)):
        write(state, whole[:end])
        found = trials.check(["--state", state, *names])[1]
        after = read(state)
        printed = trials.check(["--state", state, *names])
        is_kept = after.startswith(whole[:end]) and read(state) == after
        trials.expect(f"cut at {end}", (found, printed, is_kept), (status, (unchanged(names, states), status), True))


def damages(trials, directory, data):
    """State files of which a byte is changed, each of which is refused by its line's number and left alone."""
    names, _ = make_files(directory, data, 2)
    state = os.path.join(directory, "damaged")
    trials.check(["--state", state, *names])
    whole = read(state)
    for at in range(len(whole)):
        for change in (0x01, 0x20, 0x80):
            damaged = bytearray(whole)
            damaged[at] ^= change
            if damaged[-1] != 0x0A:
                continue
            write(state, bytes(damaged))
            status, printed, errors = run([trials.program, "--state", state, *names])
            line = whole[:at].count(b"\n") + 1
            wanted = f"{REFUSED}line {line} is damaged\n".encode()
            trials.expect(f"damaged at {at}", (printed, errors, status, read(state) == damaged), (b"", wanted, 2, True))


def refusals(trials, directory, data):
    """What is no state file, and is not written to."""
    name, state = os.path.join(directory, "image.jpg"), os.path.join(directory, "used")
    write(name, data)
    os.mkfifo(os.path.join(directory, "fifo"))
    cases = [(name, "line 1 is damaged"), (directory, "a folder"), ("/dev/null", "not a regular file"), (os.path.join(directory, "fifo"), "not a regular file"),
             (os.path.join(directory, "none", "state"), "no such file"), ("/dev/stdin", "not a regular file")]
    for target, why in cases:
        status, printed, errors = run([trials.program, "--state", target, name])
        trials.expect(f"{target} as a state file", (printed, errors, status), (b"", f"{REFUSED}{why}\n".encode(), 2))
    trials.expect("an image as a state file", read(name), data)
    for words in (["--state", "-", name], [b"--state", b"\xff", name], ["--verify", name], ["--state"], ["--state", state, "--state", state, name]):
        status, printed, errors = run([trials.program, *words], cwd=directory)
        trials.expect(f"{words}", (printed, status, os.path.exists(state)), (b"", 2, False))
    write(state, FRONT)
    with open(state, "rb") as held:
        fcntl.flock(held, fcntl.LOCK_EX)
        status, printed, errors = run([trials.program, "--state", state, name])
    trials.expect("a state file in use", (printed, errors, status, read(state)), (b"", f"{REFUSED}another run uses it\n".encode(), 2, FRONT))
    trials.check(["--state", state, "-", "/dev/stdin", os.path.join(directory, "missing"), "/dev/zero"], data)
    trials.expect("what is not recorded", read(state), FRONT)


def kills(trials, directory, data):
    """Runs that are killed, and the next one."""
    names, states = make_files(directory, data, 3000)
    for number in range(10):
        state = os.path.join(directory, f"killed-{number}")
        with subprocess.Popen([trials.program, "--state", state, *names], stdout=subprocess.PIPE, stderr=subprocess.DEVNULL) as process:
            for _ in range(1 + 290 * number):
                process.stdout.readline()
            process.send_signal(signal.SIGKILL)
            process.communicate()
        before = read(state)
        recorded = sum(line.endswith(check_of(line)) for line in before.split(b"\n")[1:])
        printed = trials.check(["--state", state, *names])[0].splitlines()
        after = read(state)
        lines = [line for line in after.split(b"\n")[1:] if line and not line.endswith(b" cut")]
        trials.expect("each is printed once", [line.split(b": ")[0].decode() for line in printed], names)
        trials.expect("those recorded are skipped", sum(b": unchanged, " in line for line in printed), recorded)
        wanted = [line_of(name, it)[:-1] for name, it in zip(names, states)]
        trials.expect("each is recorded once", (sorted(lines), after.startswith(before)), (sorted(wanted), True))


TRIALS = (records, versions, cuts, damages, refusals, kills)
