#!/usr/bin/env python3
"""Opens the page of `zvt serve` in a Chromium without a window, by its DevTools protocol.

The page pays, shows the outcome and the book, says what is unclear, takes back, and asks again after a reload, with one order at the
terminal for each. Then pages of another origin, and another name for this machine, try to pay with the token, and nothing reaches the
terminal.

serve_page.py [PROGRAM [FILE]]: the program of `rt ci` without a word. A picture of the page goes to FILE. Without chromium nothing is
tried. The status is 1 where something is not as expected.
"""
import base64
import collections
import http.server
import json
import os
import pathlib
import re
import shutil
import socket
import struct
import subprocess
import sys
import tempfile
import threading
import time

from common import Checks, program
from serving import NAMES, Moody, Service

ZVT = program(sys.argv[1:])
PICTURE = sys.argv[2] if len(sys.argv) > 2 else None
SECONDS = 60
check = Checks()

# What a page of another origin tries with a token that it should not have. Each fills `tried`.
FOREIGN = """<!doctype html><title>foreign</title><iframe id="frame" src="SERVICE/"></iframe><iframe name="target"></iframe>
<form id="form" method="post" action="SERVICE/payments" enctype="text/plain" target="target"><input name='{"amount":100,"x":"' value='"}'></form>
<script>
const tried = {};
const headers = { Authorization: 'Bearer TOKEN', 'Idempotency-Key': 'foreign-key-00001' };
const body = '{"amount":100}';
const attempt = (name, path, how) => fetch('SERVICE' + path, how).then((answer) => answer.text().then((text) => answer.type + text), () => 'refused').then((found) => { tried[name] = found; });
document.getElementById('form').submit();
Promise.all([
  attempt('with headers', '/payments', { method: 'POST', headers, body }),
  attempt('without CORS', '/payments', { method: 'POST', mode: 'no-cors', headers, body }),
  attempt('simple', '/payments', { method: 'POST', body }),
  attempt('a look', '/status', { headers }),
  attempt('the page', '/', {}),
]).then(() => new Promise((resume) => setTimeout(resume, 500))).then(() => { tried.done = true; });
</script>"""


class Browser:
    """Chromium, and one page of it."""

    def __init__(self, folder):
        words = ["chromium", "--headless", "--no-sandbox", "--disable-gpu", "--no-first-run", "--disable-dev-shm-usage", "--remote-debugging-port=0",
            "--host-resolver-rules=MAP evil.example 127.0.0.1", f"--user-data-dir={folder}", "--window-size=1000,1400", "about:blank"]
        self.process = subprocess.Popen(words, stdout=subprocess.DEVNULL, stderr=subprocess.PIPE, text=True)
        port = next(int(found[1]) for line in self.process.stderr if (found := re.search(r"DevTools listening on ws://127\.0\.0\.1:(\d+)/", line)))
        threading.Thread(target=self.process.stderr.read, daemon=True).start()
        with http_get(port, "/json/list") as answer:
            path = next(page["webSocketDebuggerUrl"] for page in json.loads(answer.read()) if page["type"] == "page")
        self.line = socket.create_connection(("127.0.0.1", port), timeout=SECONDS)
        self.line.sendall(f"GET /{path.split('/', 3)[3]} HTTP/1.1\r\nHost: 127.0.0.1:{port}\r\nUpgrade: websocket\r\nConnection: Upgrade\r\n"
            f"Sec-WebSocket-Key: {base64.b64encode(bytes(16)).decode()}\r\nSec-WebSocket-Version: 13\r\n\r\n".encode())
        self.held, self.number, self.faults = b"", 0, []
        while b"\r\n\r\n" not in self.held:
            self.held += self.line.recv(65536)
        self.held = self.held.partition(b"\r\n\r\n")[2]
        for domain in ("Page", "Runtime", "Log"):
            self.calls(f"{domain}.enable")

    def bytes(self, count):
        while len(self.held) < count:
            piece = self.line.recv(65536)
            if not piece:
                raise SystemExit("serve_page: chromium closed the connection")
            self.held += piece
        found, self.held = self.held[:count], self.held[count:]
        return found

    def message(self):
        """The next message of the browser."""
        text, is_last = b"", False
        while not is_last:
            first, second = self.bytes(2)
            size = second & 127
            if size > 125:
                size = int.from_bytes(self.bytes(2 if size == 126 else 8), "big")
            text, is_last = text + self.bytes(size), bool(first & 128)
        return json.loads(text)

    def calls(self, method, **parameters):
        """The result of a call. What the page reports meanwhile is kept."""
        self.number += 1
        text = json.dumps({"id": self.number, "method": method, "params": parameters}).encode()
        size = bytes([128 | len(text)]) if len(text) < 126 else bytes([128 | 126]) + struct.pack(">H", len(text))
        self.line.sendall(b"\x81" + size + bytes(4) + text)  # (a mask of zeros)
        while True:
            message = self.message()
            if message.get("id") == self.number:
                return message.get("result", message)
            if message.get("method") == "Runtime.exceptionThrown":
                self.faults.append(message["params"]["exceptionDetails"]["text"])
            if message.get("method") == "Log.entryAdded":
                self.faults.append(message["params"]["entry"]["text"])

    def value(self, script):
        return self.calls("Runtime.evaluate", expression=script, returnByValue=True, awaitPromise=True).get("result", {}).get("value")

    def opens(self, url):
        """Opens a page in the tab, even if only the fragment differs from the page before."""
        self.calls("Page.navigate", url="about:blank")
        self.calls("Page.navigate", url=url)
        self.until("document.readyState", "complete")

    def until(self, script, wanted):
        """Waits until a script has this value, and returns its last value."""
        end = time.monotonic() + SECONDS
        while (found := self.value(script)) != wanted and time.monotonic() < end:
            time.sleep(0.02)
        return found

    def shows(self, name, script, wanted):
        check(name, self.until(script, wanted), wanted)

    def text(self, name):
        return f"document.getElementById('{name}').textContent"

    def clicks(self, selector):
        self.value(f"document.querySelector({json.dumps(selector)}).click()")

    def pays(self, amount):
        self.value(f"document.getElementById('amount').value = '{amount}'")
        self.clicks("#pay button")

    def ends(self):
        self.process.terminate()
        self.process.wait(SECONDS)


def http_get(port, path):
    import urllib.request
    return urllib.request.urlopen(f"http://127.0.0.1:{port}{path}", timeout=SECONDS)


def amount(at, mood):
    return at * 100 + NAMES.index(mood)


def own_page(browser, service, terminal):
    """The page of the service pays, with one order for each click."""
    url = f"http://127.0.0.1:{service.port}/"
    browser.opens(f"{url}#{service.token}")
    browser.shows("the page has a connection", browser.text("line"), "Connected to the service")
    check("the token leaves the address bar", browser.value("location.href"), url)
    browser.pays(amount(11, "approves"))
    browser.shows("a payment", browser.text("outcome"), "Paid.")
    browser.shows("is in the book", "document.querySelectorAll('#book tr').length", 2)
    browser.pays(amount(12, "declines"))
    browser.shows("a payment that is declined", browser.text("outcome") + ".split(':')[0]", "Broken off")
    browser.pays(amount(13, "malformed"))
    browser.shows("a payment that is unclear", browser.text("outcome") + ".slice(0, 34)", "Unclear. Hand out nothing yet. It ")
    browser.shows("comes first in the book", "document.querySelector('#book tr').className", "unclear")
    browser.clicks("#book button")
    browser.shows("it takes back", browser.text("outcome"), "The payment was taken back.")
    browser.shows("which the book shows", "document.querySelectorAll('#book tr.gone').length", 1)
    terminal.release.clear()
    browser.pays(amount(14, "held"))
    while amount(14, "held") not in terminal.sent:
        time.sleep(0.01)
    browser.opens(url)
    browser.shows("after a reload it asks again", "document.getElementById('again').hidden", False)
    terminal.release.set()
    browser.clicks("#again")
    browser.shows("and gets the answer", browser.text("outcome"), "Paid.")
    browser.pays(amount(15, "approves"))
    browser.shows("and pays again", "document.querySelectorAll('#book tr').length", 5)
    browser.shows("the slip has the line that the terminal printed", browser.text("slip") + ".trim()", f"APPROVED {amount(15, 'approves')}")
    browser.shows("the dialogue ends with the till's answer", "document.querySelector('#dialogue li:last-child').textContent", "till: Ack")
    wanted = [amount(11, "approves"), amount(12, "declines"), amount(13, "malformed"), amount(14, "held"), amount(15, "approves")]
    check("one order for each at the terminal", (terminal.sent, len(terminal.taken)), (wanted, 1))
    # (the console has a line for each answer from 400 on)
    check("no errors but the answers", [fault for fault in browser.faults if "status of 402" not in fault and "status of 424" not in fault], [])
    if PICTURE:
        pathlib.Path(PICTURE).write_bytes(base64.b64decode(browser.calls("Page.captureScreenshot", format="png")["data"]))
    browser.value("sessionStorage.clear()")
    browser.opens(f"{url}#{'0' * 64}")
    browser.shows("another token", "document.getElementById('locked').hidden", False)
    browser.value("sessionStorage.clear()")


class Quiet(http.server.BaseHTTPRequestHandler):
    """Serves one page to everybody."""

    def do_GET(self):
        self.send_response(200)
        self.send_header("Content-Type", "text/html")
        self.end_headers()
        self.wfile.write(self.server.page)

    def log_message(self, *words):
        pass


def other_pages(browser, service, terminal):
    """A page of another origin does not pay, and reads nothing."""
    orders = list(terminal.sent)
    with http.server.ThreadingHTTPServer(("127.0.0.1", 0), Quiet) as server:
        threading.Thread(target=server.serve_forever, daemon=True).start()
        for host, own in [("127.0.0.1", "127.0.0.1"), ("localhost", "127.0.0.1"), ("evil.example", "localhost")]:
            server.page = FOREIGN.replace("SERVICE", f"http://{own}:{service.port}").replace("TOKEN", service.token).encode()
            browser.opens(f"http://{host}:{server.server_port}/")
            browser.shows(f"{host} has tried", "tried.done", True)
            tried = json.loads(browser.value("JSON.stringify(tried)"))
            check(f"{host} learns nothing", tried, {"with headers": "refused", "without CORS": "opaque", "simple": "refused", "a look": "refused", "the page": "refused", "done": True})
        server.shutdown()
    # The name of another site that leads to this machine: its pages would have the origin of the service.
    browser.opens(f"http://evil.example:{service.port}/")
    check("another name is refused", browser.value("""document.body.innerText.includes('"error":"host"')"""), True)
    found = browser.value(f"fetch('/payments', {{ method: 'POST', headers: {{ Authorization: 'Bearer {service.token}', 'Idempotency-Key': 'another-name-0001' }}, "
        "body: '{\"amount\":100}' }).then((answer) => answer.status)")
    check("and cannot pay", found, 421)
    check("nothing reached the terminal", terminal.sent, orders)
    for key in ("foreign-key-00001", "another-name-0001"):
        check(f"no order has the key {key}", service.call("GET", f"/payments/{key}").status, 404)


def main():
    if shutil.which("chromium") is None:
        print("serve_page: chromium is missing: the page was not opened", file=sys.stderr)
        return 0
    with tempfile.TemporaryDirectory(ignore_cleanup_errors=True) as folder:
        folder = pathlib.Path(folder)
        terminal = Moody()
        terminal.prints = True
        service = Service(ZVT, folder, terminal.port)
        service.until((200,), "page-is-registered", amount(10, "approves"))
        terminal.sent.clear()
        browser = Browser(folder / "chromium")
        try:
            own_page(browser, service, terminal)
            other_pages(browser, service, terminal)
        finally:
            browser.ends()
            service.kill()
            terminal.release.set()
            terminal.stop()
    print(f"{check.verdict}: the page, {check.count} comparisons")
    return check.status


if __name__ == "__main__":
    sys.exit(main())
