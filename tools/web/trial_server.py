"""The server of tools/check-web: the page, the trial with its files, and files that arrive slowly."""

import http.server
import json
import os
import threading
import time
import urllib.parse

HERE = os.path.dirname(os.path.abspath(__file__))
TYPES = {".js": "text/javascript", ".wasm": "application/wasm", ".css": "text/css", ".html": "text/html; charset=utf-8", ".svg": "image/svg+xml"}
TRIAL = b'<!doctype html><meta charset="utf-8"><title>trial</title><script type="module" src="trial.js"></script>'
# Parts of a slow file come at this interval.
SECONDS = 0.02


class Handler(http.server.BaseHTTPRequestHandler):
    protocol_version = "HTTP/1.1"

    def do_GET(self):
        address = urllib.parse.urlsplit(self.path)
        directory, _, name = urllib.parse.unquote(address.path).lstrip("/").partition("/")
        words = dict(urllib.parse.parse_qsl(address.query))
        if directory == "files" and name in self.server.files:
            self.send_file(self.server.files[name], words)
        else:
            self.send(*self.find(directory, name))

    def find(self, directory, name):
        """Returns the bytes and the type of what has this name, or None."""
        if directory == "trial":
            made = {"index.html": TRIAL, "work.json": self.server.work_json, "files.bin": self.server.packed}
            if name in made:
                return made[name], TYPES.get(os.path.splitext(name)[1], "application/octet-stream")
            return read(self.server.small if name == "small-stack.wasm" else os.path.join(HERE, name))
        return read(os.path.join(self.server.page, name or "index.html")) if directory == "page" else (None, "")

    def do_POST(self):
        data = self.rfile.read(int(self.headers["Content-Length"]))
        if urllib.parse.urlsplit(self.path).path == "/trial/findings":
            self.server.findings = json.loads(data)
        else:
            self.server.received += len(data)
        self.send(b"", "text/plain")

    def send(self, data, kind):
        self.send_response(404 if data is None else 200)
        self.send_header("Content-Type", kind or "text/plain")
        self.send_header("Content-Length", str(len(data or b"")))
        self.send_header("Cache-Control", "no-store")
        self.end_headers()
        self.wfile.write(data or b"")

    def send_file(self, data, words):
        """Sends a file in parts: `rate` bytes a second, after `stop` bytes nothing until the server lets go, and after `cut` bytes
        nothing at all."""
        rate, stop = int(words.get("rate", len(data) / SECONDS + 1)), int(words.get("stop", len(data)))
        part = max(1, int(rate * SECONDS))
        self.send_response(200)
        self.send_header("Content-Type", "image/jpeg")
        self.send_header("Content-Length", str(len(data)))
        self.send_header("Cache-Control", "no-store")
        self.end_headers()
        try:
            if "cut" in words:
                self.wfile.write(data[: int(words["cut"])])
                self.close_connection = True
                return
            for at in range(0, len(data), part):
                if at + part > stop:
                    self.wfile.write(data[at:stop])
                    self.server.release.wait(60)
                    self.wfile.write(data[stop:])
                    return
                self.wfile.write(data[at : at + part])
                time.sleep(SECONDS if rate < len(data) / SECONDS else 0)
        except OSError:
            self.close_connection = True

    def log_message(self, *_):
        pass


def read(path):
    """Returns the bytes of a file of the page or the trial and its type; None if there is none."""
    if not os.path.isfile(path):
        return None, ""
    with open(path, "rb") as file:
        return file.read(), TYPES.get(os.path.splitext(path)[1], "application/octet-stream")


class Server(http.server.ThreadingHTTPServer):
    """Serves on 127.0.0.1 while it is entered. `files` are those of the page's trials, `findings` is what the trial found."""

    daemon_threads = True

    def __init__(self, page, small, work):
        super().__init__(("127.0.0.1", 0), Handler)
        self.page, self.small, self.work_json, self.packed = page, small, work.json(), b"".join(work.files)
        self.files, self.findings, self.received, self.release = {}, None, 0, threading.Event()

    def address(self, path):
        return f"http://127.0.0.1:{self.server_port}/{path}"

    def __enter__(self):
        threading.Thread(target=self.serve_forever, daemon=True).start()
        return self

    def __exit__(self, *_):
        self.release.set()
        self.shutdown()
        self.server_close()
