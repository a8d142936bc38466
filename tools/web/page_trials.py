"""The trials of the page itself: what it shows of files, read back from its canvas and its words."""

import base64
import os
import re
import subprocess
import sys
import tempfile
import time
import urllib.parse
import zlib

import trial_files

ROOT = os.path.join(os.path.dirname(os.path.abspath(__file__)), "..", "..")
JRI_VIEW = os.path.join(ROOT, "tools", "desktop", "jri-view")
SECONDS = 300
LARGE = 300_000_000
# The canvas, as the check value of its pixels; what is tinted; and the words.
READ = """
const crc = (bytes) => {
  const table = Int32Array.from({ length: 256 }, (_, n) => { for (let k = 0; k < 8; k++) n = n & 1 ? (n >>> 1) ^ 0xedb88320 : n >>> 1; return n; });
  let sum = -1;
  for (const byte of bytes) sum = table[(sum ^ byte) & 255] ^ (sum >>> 8);
  return (sum ^ -1) >>> 0;
};
const canvas = document.getElementById('image');
const context = canvas.getContext('2d');
const rows = arguments[0] ?? canvas.height;
const pixels = context.getImageData(0, 0, canvas.width, rows).data;
const rest = rows < canvas.height ? context.getImageData(0, rows, canvas.width, canvas.height - rows).data : [];
const tint = document.getElementById('tint');
const marked = tint.getContext('2d').getImageData(0, 0, tint.width, tint.height).data;
let tinted = 0;
for (let k = 3; k < marked.length; k += 4) tinted += marked[k] > 0;
return { size: [canvas.width, canvas.height], crc: crc(pixels), isBlank: rest.every((it) => it === 0), tinted,
         state: document.getElementById('state').textContent, report: document.getElementById('report').textContent,
         bar: document.getElementById('bar').getAttribute('aria-label'), facts: document.getElementById('facts').textContent };
"""
IS_SHOWN = "return document.documentElement.dataset.ready && document.getElementById('cancel').hidden && !document.getElementById('viewer').hidden"
# Gives files to the page as if they were chosen.
CHOOSE = """
const transfer = new DataTransfer();
for (const [name, text] of arguments[0]) transfer.items.add(new File([Uint8Array.from(atob(text), (it) => it.charCodeAt(0))], name, { type: 'image/jpeg' }));
const input = document.getElementById('files');
input.files = transfer.files;
input.dispatchEvent(new Event('change'));
"""
# Gives a file to the page, with this number of bytes after it.
CHOOSE_LARGE = """
const transfer = new DataTransfer();
const [text, count] = arguments;
transfer.items.add(new File([Uint8Array.from(atob(text), (it) => it.charCodeAt(0)), new Uint8Array(count)], 'large.jpg', { type: 'image/jpeg' }));
const input = document.getElementById('files');
input.files = transfer.files;
input.dispatchEvent(new Event('change'));
"""
IS_READY = "return document.documentElement.dataset.ready"
REPORT = "return ['state', 'report'].map((name) => document.getElementById(name).textContent)"
IS_SHOWN_OTHERWISE = "return !document.getElementById('other').hidden && document.getElementById('other-image').complete"
ARRIVES = "return document.getElementById('state').textContent.startsWith('arriving')"
IS_CHECKED = "return document.getElementById('list-cancel').hidden && !document.getElementById('list').hidden"
ROWS = "return [...document.querySelectorAll('#rows li')].filter((it) => !it.hidden).map((it) => [it.querySelector('b').textContent, it.querySelector('span').textContent])"
CONNECT = """
window.refused = [];
const address = arguments[0];
const note = (name) => (promise) => promise.then(() => window.refused.push(`${name} connected`), () => window.refused.push(name));
note('fetch')(fetch(address));
note('upload')(fetch(address, { method: 'POST', body: 'x' }));
note('request')(new Promise((resolve, reject) => { const it = new XMLHttpRequest(); it.onload = resolve; it.onerror = reject; it.open('GET', address); it.send(); }));
note('image')(new Promise((resolve, reject) => { const it = new Image(); it.onload = resolve; it.onerror = reject; it.src = new URL('icon.svg', location.href); }));
const code = `fetch(${JSON.stringify(address)}).then(() => postMessage('connected'), () => postMessage('refused'))`;
const worker = new Worker(URL.createObjectURL(new Blob([code], { type: 'text/javascript' })), { type: 'module' });
note('worker')(new Promise((resolve, reject) => { worker.onmessage = ({ data }) => (data === 'refused' ? reject() : resolve()); }));
"""


def check_line(library, data):
    """Returns jri_check's line of a file that is sound or damaged and has nothing after its image."""
    header, (_, report) = library.header(data), library.check(data)
    word = "interval" if report["intervals"] == 1 else "intervals"
    end = "" if report["ended"] == "EOI" else f", {report['text']}"
    if not report["damaged"]:
        return f"sound, {report['intervals']} {word}{end}"
    damages = library.damages(data, 1 << 20)
    first = damages[0]
    mcu = first["firstMcu"] + min(first["decodable"], first["mcus"] - 1)
    lines = mcu // header["mcusAcross"] * header["mcuHeight"], max(it["lastLine"] for it in damages)
    return f"damaged, {report['damaged']} of {report['intervals']} {word}, lines {lines[0]} to {lines[1]}{end}"


def page_files():
    """Returns the files that the page shows, by name."""
    sound = trial_files.photo(trial_files.PAGE_PHOTO)
    plain = trial_files.photo((700, 500, ["-quality", "80", "-sample", "2x1"]))
    sectors = len(sound) // trial_files.SECTOR
    found = {"sound.jpg": sound, "damaged.jpg": trial_files.spoilt(sound, (sectors // 3, sectors // 2), 5)}
    found |= {"cut.jpg": sound[: len(sound) * 2 // 3], "plain.jpg": plain, "plain cut.jpg": plain[: len(plain) // 2]}
    return found | {"small.jpg": trial_files.compressed()[1], "grey.jpg": trial_files.compressed()[4]}


def address_of(server, name, **words):
    """Returns the address of the page that shows a file."""
    query = f"?{urllib.parse.urlencode(words)}" if words else ""
    file = f"/files/{urllib.parse.quote(name)}{query}"
    return server.address("page/index.html?" + urllib.parse.urlencode({"url": file, "name": name}))


def compare(findings, kind, found, expected):
    for key, value in expected.items():
        findings.see(kind, found.get(key) == value, f"{key}: {found.get(key)!r}, not {value!r}")


def image_of(library, data):
    """Returns what the page's canvas has of a file at the end."""
    header, (_, report) = library.header(data), library.check(data)
    damages = library.damages(data, 1 << 20)
    bar = f"Restart intervals: {report['sound']} sound, {report['damaged']} damaged, 0 not here yet"
    shape = [header["width"], header["height"]]
    tinted = sum(it["mcus"] for it in damages)
    return {"size": shape, "crc": zlib.crc32(library.canvas(data)), "bar": bar, "tinted": tinted, "isBlank": True}


def report_of(library, name, data):
    _, report = library.check(data)
    counts = f"intervals {report['intervals']} sound {report['sound']} damaged {report['damaged']} blank 0"
    return f"{counts}\n{report['text']}\n{name}: {check_line(library, data)}"


def show_files(browser, server, findings, library):
    """Each file is shown from its address: the image, the tint, the bar and the report are libjri's."""
    for name, data in page_files().items():
        server.files[name] = data
        browser.open(address_of(server, name))
        browser.wait(IS_SHOWN, seconds=SECONDS)
        state = "damaged" if library.check(data)[1]["damaged"] else "sound"
        expected = {**image_of(library, data), "state": state}
        found = browser.run(READ)
        compare(findings, "shown", found, expected)
        findings.see("shown", found["report"] == report_of(library, name, data), f"{name}: {found['report']}")
    server.files["progressive.jpg"] = trial_files.progressive()
    browser.open(address_of(server, "progressive.jpg"))
    browser.wait(IS_SHOWN, seconds=SECONDS)
    text = "progressive.jpg: unsupported 5: progressive JPEG (SOF2) is not supported"
    compare(findings, "refused", browser.run(READ), {"state": "unsupported", "report": text})
    browser.wait(IS_SHOWN_OTHERWISE, seconds=SECONDS)
    findings.see("refused", browser.run("return document.getElementById('other-image').naturalWidth") == 320, "the browser's own image")


def show_hard_files(browser, server, findings):
    """A server that stops half-way, and a file of 300 MB."""
    name, data = next(iter(page_files().items()))
    browser.open(address_of(server, name, cut=len(data) // 2))
    browser.wait(IS_SHOWN, seconds=SECONDS)
    state, report = browser.run(REPORT)
    findings.see("cut off", state == "cannot be read", report)
    browser.open(server.address("page/index.html"))
    browser.wait(IS_READY, seconds=SECONDS)
    browser.run(CHOOSE_LARGE, base64.b64encode(data).decode(), LARGE)
    browser.wait(IS_SHOWN, seconds=SECONDS)
    state, report = browser.run(REPORT)
    findings.see("large", state == "sound" and f"{LARGE} bytes after the end" in report, report)


def await_rest(browser):
    """Waits until no further lines are drawn, and returns their number."""
    lines = "return Number(/(\\d+) of \\d+ lines/.exec(document.getElementById('facts').textContent)?.[1] ?? 0)"
    seen = [browser.wait(lines, seconds=SECONDS)]
    while len(seen) < 4 or len(set(seen[-4:])) > 1:
        time.sleep(0.3)
        seen.append(browser.run(lines))
    return seen[-1]


def show_arrival(browser, server, findings, library):
    """A file that stops half way shows the lines that are final, and all of it once the rest comes."""
    for name in ("sound.jpg", "damaged.jpg", "plain.jpg"):
        data = server.files[name]
        server.release.clear()
        browser.open(address_of(server, name, stop=len(data) // 2))
        rows = await_rest(browser)
        whole, width = library.canvas(data), library.header(data)["width"]
        found = browser.run(READ, rows)
        part = {"crc": zlib.crc32(whole[: 4 * width * rows]), "isBlank": True}
        compare(findings, "arriving", found, part)
        findings.see("arriving", found["state"].startswith("arriving") and rows > 0, found["state"])
        # after a marker that ends the scan no further interval comes: all marks are known
        report, marks = library.check(data)[1], re.findall(r"\d+", found["bar"])
        findings.see("arriving", marks[2:] != ["0"] or marks[:2] == [str(report["sound"]), str(report["damaged"])], found["bar"])
        server.release.set()
        browser.wait(IS_SHOWN, seconds=SECONDS)
        compare(findings, "arrived", browser.run(READ), image_of(library, data))
    server.release.clear()
    browser.open(address_of(server, "sound.jpg", stop=5000))
    browser.wait("return document.documentElement.dataset.ready && document.getElementById('facts').textContent.includes('lines')", seconds=SECONDS)
    browser.run("document.getElementById('cancel').click()")
    browser.wait(IS_SHOWN, seconds=SECONDS)
    compare(findings, "cancelled", browser.run(READ), {"state": "cancelled"})
    server.release.set()


def table_cases():
    """Returns the rows of the table as files with the line that jri_check has for each."""
    return [(f"{number:03} {row.name}.jpg", row.files()[0], row.check_lines()[0]) for number, row in enumerate(trial_files.table_rows())]


def encoded(files):
    return [[name, base64.b64encode(data).decode()] for name, data in files]


def list_files(browser, server, findings):
    """The list has jri_check's line for each row of the table, and the filter lists the damaged ones."""
    browser.open(server.address("page/index.html"))
    browser.wait(IS_READY, seconds=SECONDS)
    rows = table_cases()
    browser.run(CHOOSE, encoded((name, data) for name, data, _ in rows))
    browser.wait(IS_CHECKED, seconds=SECONDS)
    for (name, _, line), found in zip(rows, browser.run(ROWS), strict=True):
        findings.see("listed", found == [name, line], f"{found}, not {[name, line]}")
    damaged = [[name, line] for name, _, line in rows if line.startswith("damaged")]
    browser.run("document.querySelector('#filters [value=damaged]').click()")
    findings.see("filtered", browser.run(ROWS) == damaged, "the damaged files")


def mend_files(browser, server, findings, library):
    """Two copies are mended, and the mended file is shown."""
    sound, lists = trial_files.copies()
    for copies in lists[:2]:
        names = [(f"copy {number}.jpg", data) for number, data in enumerate(copies, 1)]
        browser.open(server.address("page/index.html"))
        browser.wait(IS_READY, seconds=SECONDS)
        browser.run(CHOOSE, encoded(names))
        browser.wait(IS_CHECKED, seconds=SECONDS)
        browser.run("document.getElementById('mend').click()")
        browser.wait("return !document.getElementById('mended').hidden", seconds=SECONDS)
        browser.wait(IS_SHOWN, seconds=SECONDS)
        compare(findings, "mended page", browser.run(READ), {**image_of(library, sound), "state": "sound"})
        title, link = browser.run("return [document.getElementById('mended-title').textContent, document.getElementById('mended-link').href]")
        findings.see("mended page", title == f"Mended from {len(copies)} copies" and link.startswith("blob:"), title)


def try_connections(browser, server, findings):
    """Neither the page nor a worker that it starts can connect, to its own server or to another address."""
    browser.open(server.address("page/index.html"))
    browser.wait(IS_READY, seconds=SECONDS)
    server.received = 0
    browser.run(CONNECT, server.address("page/icon.svg"))
    refused = browser.wait("return window.refused.length === 5 && window.refused", seconds=SECONDS)
    findings.see("connections", sorted(refused) == ["fetch", "image", "request", "upload", "worker"], refused)
    findings.see("connections", server.received == 0, "bytes were received")


def press_keys(browser, server, findings):
    """The keys choose a tint and a damaged part."""
    browser.open(address_of(server, "damaged.jpg"))
    browser.wait(IS_SHOWN, seconds=SECONDS)
    press = "for (const key of arguments[0]) document.dispatchEvent(new KeyboardEvent('keydown', { key, bubbles: true }));"
    press = press.replace("document.dispatch", "document.body.dispatch")
    browser.run(press, "tn")
    found = browser.run("return [document.getElementById('tint-choice').value, document.getElementById('spot').hidden, document.querySelectorAll('[aria-current=true]').length]")
    findings.see("keys", found == ["all", False, 1], found)
    tinted = browser.run(READ)["tinted"]
    findings.see("keys", tinted > 1000, f"{tinted} MCUs tinted of all")
    browser.run(press, "tf")
    zoomed = browser.run("return [document.getElementById('zoom').getAttribute('aria-pressed'), document.getElementById('frame').clientWidth]")
    findings.see("keys", zoomed == ["true", 1200], zoomed)


def follow_growth(browser, findings, library):
    """jri-view serves a file that grows, and the page shows it as it grows."""
    data = trial_files.photo(trial_files.PAGE_PHOTO)
    with tempfile.TemporaryDirectory() as directory:
        path = os.path.join(directory, "growing photo.jpg")
        with open(path, "wb") as file:
            file.write(data[: len(data) // 2])
            file.flush()
            viewer = subprocess.Popen([sys.executable, JRI_VIEW, "--no-open", path], stdout=subprocess.PIPE, text=True)
            try:
                browser.open(viewer.stdout.readline().strip())
                browser.wait("return / [1-9]\\d* of \\d+ lines/.test(document.getElementById('facts').textContent)", seconds=SECONDS)
                time.sleep(3)
                findings.see("growing", browser.run(READ)["state"].startswith("arriving"), "it is not followed")
                file.write(data[len(data) // 2 :])
                file.close()
                browser.wait(IS_SHOWN, seconds=SECONDS)
                compare(findings, "growing", browser.run(READ), {**image_of(library, data), "state": "sound"})
            finally:
                viewer.terminate()
                viewer.wait(10)


def run(browser, server, findings, library):
    """Runs the trials of the page in a browser."""
    show_files(browser, server, findings, library)
    show_hard_files(browser, server, findings)
    show_arrival(browser, server, findings, library)
    list_files(browser, server, findings)
    mend_files(browser, server, findings, library)
    try_connections(browser, server, findings)
    press_keys(browser, server, findings)
    follow_growth(browser, findings, library)


def landscape(words):
    """Returns the landscape of tools/draw-pictures as a JPEG file."""
    script = (
        "import importlib.machinery, importlib.util, sys, io; from PIL import Image\n"
        "sys.path.insert(0, sys.argv[1]); sys.dont_write_bytecode = True\n"
        "loader = importlib.machinery.SourceFileLoader('draw', sys.argv[1] + '/draw-pictures')\n"
        "draw = importlib.util.module_from_spec(importlib.util.spec_from_loader('draw', loader)); loader.exec_module(draw)\n"
        "Image.fromarray(draw.draw()).resize((1600, 1200), Image.LANCZOS).save(sys.stdout.buffer, 'PPM')\n"
    )
    made = subprocess.run(["/usr/bin/python3", "-c", script, os.path.join(ROOT, "tools")], stdout=subprocess.PIPE, check=True).stdout
    return subprocess.run(["cjpeg", *words], input=made, stdout=subprocess.PIPE, check=True).stdout


class Shots:
    """Screenshots of the page."""

    def __init__(self, browser, server, directory):
        self.browser, self.server, self.directory = browser, server, directory
        os.makedirs(directory, exist_ok=True)
        sound = landscape(["-quality", "85", "-sample", "2x2", "-restart", "1"])
        sectors = len(sound) // trial_files.SECTOR
        self.copies = [trial_files.spoilt(sound, range(sectors * k // 5, sectors * k // 5 + 4), k) for k in (2, 3)]
        server.files |= {"landscape.jpg": sound, "damaged landscape.jpg": trial_files.overwritten(sound, (20, 33, 34, 60))}

    def take(self, name):
        time.sleep(0.3)
        with open(os.path.join(self.directory, f"{name}.png"), "wb") as file:
            file.write(self.browser.screenshot())

    def show(self, file, script=IS_SHOWN, **words):
        self.browser.open(address_of(self.server, file, **words))
        self.browser.wait(script, seconds=SECONDS)

    def empty(self, name):
        self.browser.open(self.server.address("page/index.html"))
        self.browser.wait(IS_READY, seconds=SECONDS)
        self.take(name)

    def arriving(self, name, file, share):
        """The page when this share of a file has come, in percent."""
        self.server.release.clear()
        self.show(file, ARRIVES, stop=len(self.server.files[file]) * share // 100)
        self.take(name)
        self.server.release.set()

    def choose(self, files):
        self.browser.open(self.server.address("page/index.html"))
        self.browser.wait(IS_READY, seconds=SECONDS)
        self.browser.run(CHOOSE, encoded(files))
        self.browser.wait(IS_CHECKED, seconds=SECONDS)

    def listed(self, name):
        sound = self.server.files["landscape.jpg"]
        files = [(f"2026/photo {number}.jpg", data) for number, data in enumerate(page_files().values(), 1)]
        files += [("2026/landscape.jpg", sound), ("2026/from the web.jpg", trial_files.progressive()), ("2026/notes.jpg", b"no picture")]
        self.choose(files)
        self.take(name)

    def mended(self, name):
        self.choose([(f"{place}/photo.jpg", data) for place, data in zip(("disk", "tape"), self.copies)])
        self.browser.run("document.getElementById('mend').click()")
        self.browser.wait("return !document.getElementById('mended').hidden", seconds=SECONDS)
        self.browser.wait(IS_SHOWN, seconds=SECONDS)
        self.take(name)


def take_shots(browser, server, directory):
    """Takes screenshots of a sound and a damaged file that arrive slowly, and where the browser can imitate them those of a
    phone and of a preference for dark."""
    shots = Shots(browser, server, directory)
    for kind, file in (("sound", "landscape.jpg"), ("damaged", "damaged landscape.jpg")):
        for share in (30, 60):
            shots.arriving(f"{browser.name}-{kind}-{share}", file, share)
        shots.show(file)
        shots.take(f"{browser.name}-{kind}-100")
    if hasattr(browser, "prefer"):
        take_kinds(browser, shots)


def take_kinds(browser, shots):
    """Takes screenshots of the page, light and dark, on a desktop and on a phone."""
    for scheme in ("light", "dark"):
        browser.prefer(scheme)
        for kind, width, height in (("desktop", 1280, 1000), ("phone", 390, 844)):
            browser.resize(width, height)
            shots.empty(f"empty-{kind}-{scheme}")
            shots.arriving(f"arriving-{kind}-{scheme}", "damaged landscape.jpg", 55)
            shots.show("damaged landscape.jpg")
            shots.take(f"damaged-{kind}-{scheme}")
            shots.listed(f"list-{kind}-{scheme}")
            shots.mended(f"mended-{kind}-{scheme}")
            shots.show("progressive.jpg")
            shots.take(f"refused-{kind}-{scheme}")
