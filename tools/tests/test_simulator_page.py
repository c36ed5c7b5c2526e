"""The page of examples/simulator: what its server answers, and how it looks and hears in a browser where Chromium is."""
import http.client
import json
import os
import pathlib
import signal
import subprocess
import sys
import tempfile
import time
import unittest

from perfly_play.pictures import Image

from . import flying
from .browser import CHROMIUM, Browser
from .programs import PERFLY_LIVE

from simulator.flight import Flight, Shown, start_world
from simulator.keys import read_flight
from simulator.serving import Server, Window

# The number of the frame that is seen, and its picture, four bytes a pixel.
SEEN = """[parseInt(cells.frames.textContent.replace(',', '')),
          [...picture.getContext('2d').getImageData(0, 0, picture.width, picture.height).data]]"""


class Served(unittest.TestCase):
    def setUp(self):
        self.window = Window()
        self.server = Server(self.window, 0)
        self.addCleanup(self.server.server_close)
        self.addCleanup(self.server.shutdown)

    def ask(self, method, path, body=None, **headers):
        """Asks the server; returns the status and what is answered."""
        connection = http.client.HTTPConnection(*self.server.server_address, timeout=20)
        self.addCleanup(connection.close)
        connection.request(method, path, body, headers)
        answer = connection.getresponse()
        return answer if path == "/pictures" and answer.status == 200 else (answer.status, answer.read())

    def give(self, held):
        """Gives the keys that are held; returns the status."""
        return self.ask("POST", "/keys", json.dumps(held))[0]

    def test_port(self):
        """A port that is taken is told."""
        call = [sys.executable, "-B", flying.START, "--port", str(self.server.server_address[1])]
        done = subprocess.run(call, capture_output=True, text=True, check=False, timeout=60,
                              env={**os.environ, "PERFLY_LIVE": str(flying.STAND_IN)})
        self.assertEqual((done.returncode, done.stdout), (1, ""))
        self.assertRegex(done.stderr, r"^start: no page at port \d+: .*; --port names another\n$")

    def test_page(self):
        status, page = self.ask("GET", "/")
        self.assertEqual((status, page), (200, (flying.START.parent / "page.html").read_bytes()))
        self.assertEqual(self.ask("GET", "/../start")[0], 404)

    def test_keys(self):
        """Each change has its tick, the last one stays; what is no key is refused."""
        self.assertEqual([self.give(held) for held in (["view"], [], ["left", "faster"])], [200, 200, 200])
        self.assertEqual([self.give(held) for held in (["jump"], 5, [["left"]])], [400, 400, 400])
        self.assertEqual(self.ask("POST", "/keys", "{")[0], 400)
        self.assertEqual(self.ask("POST", "/keys", "[" * 5000)[0], 403)
        self.assertEqual([self.window.held() for _ in range(4)], [{"view"}, set(), {"left", "faster"}, {"left", "faster"}])

    def test_others(self):
        """A page of another host is told nothing, and no key is taken from it."""
        self.assertEqual(self.ask("GET", "/", Host="example.org")[0], 403)
        self.assertEqual(self.ask("POST", "/keys", '["left"]', Origin="http://example.org")[0], 403)
        self.assertEqual(self.window.held(), frozenset())

    def test_pictures(self):
        """A page gets the newest picture, at once and when there is another; where it goes, no key is held."""
        one, two = (Image(2, 1, [bytes((k,) * 6)]) for k in (1, 2))
        self.window.put(Shown(one, {"tick": 1}))
        answer = self.ask("GET", "/pictures")
        self.assertEqual(json.loads(answer.readline()), {"tick": 1, "bytes": len(one.ppm())})
        self.assertEqual(answer.read(len(one.ppm())), one.ppm())
        self.window.put(Shown(two, {"tick": 2}))
        self.assertEqual(json.loads(answer.readline())["bytes"], len(two.ppm()))
        self.assertEqual(answer.read(len(two.ppm())), two.ppm())
        self.give(["left"])
        self.assertEqual(self.window.held(), {"left"})
        self.window.end("it has ended")
        last = [json.loads(line) for line in answer.read().splitlines()][-1]
        self.assertEqual(last, {"ended": "it has ended", "bytes": 0})
        end = time.monotonic() + 20
        while self.window.held() and time.monotonic() < end:
            time.sleep(0.05)
        self.assertEqual(self.window.held(), frozenset())


@unittest.skipUnless(CHROMIUM, "no Chromium here")
class InBrowser(unittest.TestCase):
    def setUp(self):
        folder = tempfile.TemporaryDirectory()
        self.addCleanup(folder.cleanup)
        self.kept = pathlib.Path(folder.name) / "own.keys"

    def start(self, program, size):
        """Starts the simulator over a program, with its keys kept; returns the address of its page."""
        call = [sys.executable, "-B", flying.START, "--port", "0", "--size", size, "--keep", self.kept]
        self.simulator = subprocess.Popen(call, stdout=subprocess.PIPE, text=True,
                                          env={**os.environ, "PERFLY_LIVE": str(program)})
        self.addCleanup(self.simulator.stdout.close)
        self.addCleanup(self.simulator.wait)
        self.addCleanup(self.simulator.kill)
        return self.simulator.stdout.readline().split()[4].rstrip(";")

    def fly(self, browser):
        """Presses and lets go keys; yields when each is seen to have done what it does."""
        browser.wait_for("typeof cells !== 'undefined' && cells.throttle.textContent === '0 %'")
        yield
        browser.press("w")
        browser.wait_for("parseInt(cells.throttle.textContent) > 20 && !cells.speed.textContent.startsWith('0.0')")
        yield
        browser.press("w", False)
        for view in ("cockpit", "ground"):
            browser.press("v")
            browser.wait_for(f"cells.view.textContent === '{view}'")
            yield
            browser.press("v", False)

    def end(self, browser):
        """Ends the simulator by Ctrl-C, which the page tells."""
        self.simulator.send_signal(signal.SIGINT)
        browser.wait_for("state.textContent === 'the simulator has ended'")
        self.assertEqual(self.simulator.wait(60), 0)

    def test_keys(self):
        """Keys that are pressed fly the aeroplane, and are kept; a picture stands beside its own numbers."""
        with Browser() as browser:
            browser.open(self.start(flying.STAND_IN, "8x6"))
            for _ in self.fly(browser):
                number, data = browser.value(SEEN)
                self.assertEqual(bytes(data), (number.to_bytes(3, "big") + b"\xff") * 48)
            self.assertEqual(browser.value("[picture.width, picture.height]"), [8, 6])
            self.end(browser)
        self.assertRegex(self.kept.read_text(), r"^flight 1\n\d+ faster\n\d+\n\d+ view\n\d+\n\d+ view\n(\d+\n)?\d+ end\n$")

    @unittest.skipUnless(PERFLY_LIVE, "perfly_live is not built")
    def test_pictures(self):
        """What is seen of a flight is what perfly_live draws of its keys; each key changes the picture."""
        with Browser() as browser:
            browser.open(self.start(PERFLY_LIVE, "80x60"))
            seen = dict(browser.value(SEEN) for _ in self.fly(browser))
            self.end(browser)
        with start_world(80, 60, program=PERFLY_LIVE) as world:
            flight = Flight(world)
            drawn = {shown.told["frame"]: shown.picture.data
                     for held in read_flight(self.kept) for shown in flight.tick(held)}
            list(flight.end())
        self.assertEqual(len({bytes(data) for data in seen.values()}), 4)
        for number, data in seen.items():
            del data[3::4]
            self.assertEqual(bytes(data), drawn[number], number)


if __name__ == "__main__":
    unittest.main()
