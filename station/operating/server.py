"""The station's page over HTTP: its files, a stream of what is to be shown to a person, and what that person asks
for."""
import collections
import functools
import http.server
import itertools
import json
import pathlib
import queue
import sys
import threading
import time
import urllib.parse

STATION = pathlib.Path(__file__).resolve().parent.parent
PAGE, VIEWER = STATION / "page", STATION.parent / "viewer"
# The words of the documents, in both languages, and what draws charts and lines are those of the page that draws
# histories.
SCRIPTS = ("docs.js", "german.js", "labels.js", "words.js", "recipes.js", "stand.js", "awaited.js", "paint.js",
           "pens.js", "chart.js")
SHARED = {"chart.css": VIEWER / "chart.css", **{name: VIEWER / "source" / name for name in SCRIPTS}}
KINDS = {".html": "text/html", ".js": "text/javascript", ".css": "text/css", ".svg": "image/svg+xml"}
# In seconds: how often the page is drawn anew at most, how long nothing may be told to it, how long an answer takes.
PAUSE, SILENCE, PATIENCE = 0.2, 5.0, 30.0
MOST_BYTES, MOST_READERS = 100_000, 64
# How many times as long as a drawing took nothing is drawn.
LEFT = 4
OVER = object()
POLICY = "default-src 'self'; frame-ancestors 'none'"


class Server(http.server.ThreadingHTTPServer):
    """A browser that goes in the midst of something is nothing to tell of."""
    daemon_threads = True

    def handle_error(self, request, client_address):
        if not isinstance(sys.exception(), ConnectionError):
            super().handle_error(request, client_address)


class Pages:
    """Who looks at the page, at this address."""

    def __init__(self, turns, address):
        self.turns, self.readers, self.pause, self.is_drawing, self.is_old = turns, {}, PAUSE, False, False
        self.server = Server(address, functools.partial(Handler, self))

    def serve(self, draw, do, more):
        """Begins to serve. `draw` gives all that is shown to a person, part by part: what it gives last is the whole.
        `do` takes what is asked for, and a call for the answer; `more` has by its name what a page asks for besides,
        which takes the words of a query. All are called in turns."""
        self.draw, self.do, self.more = draw, do, more
        threading.Thread(target=self.server.serve_forever, daemon=True).start()

    def close(self):
        self.server.shutdown()
        self.server.server_close()

    def changed(self):
        """Something is to be shown anew. In a turn."""
        self.is_old = True
        if self.readers and not self.is_drawing:
            self.is_drawing = True
            self.turns.later(self.pause, self.begin)

    def begin(self):
        """Begins to draw for all who look."""
        self.is_old = False
        readers = collections.defaultdict(list)
        for reader, by in self.readers.items():
            readers[by].append(reader)
        self.go_on(itertools.chain.from_iterable(itertools.starmap(self.draw_for, readers.items())), self.drawn)

    def drawn(self, took):
        """All was drawn, which took so many seconds. What takes long is done less often, so that most of the time is
        left for the plant."""
        self.pause, self.is_drawing = max(PAUSE, LEFT * took), False
        if self.is_old:
            self.changed()

    def draw_for(self, by, readers):
        """Draws for a person, and gives the whole to those who looked as this person when it was begun; of what one
        didn't take yet the latest counts."""
        for shown in self.draw(by):
            yield
        text = json.dumps(shown)
        for reader in readers:
            put_latest(reader, text)

    def go_on(self, drawing, ended, took=0.0):
        """Draws part by part, each in a turn of its own: a person who asks for something doesn't wait for the whole."""
        began = time.monotonic()
        is_over = next(drawing, OVER) is OVER
        took += time.monotonic() - began
        if is_over:
            ended(took)
        else:
            self.turns.put(lambda: self.go_on(drawing, ended, took))

    def come(self, reader, by):
        if len(self.readers) >= MOST_READERS:
            self.readers.pop(next(iter(self.readers)))
        self.readers[reader] = by
        self.go_on(self.draw_for(by, [reader]), lambda _: None)

    def go(self, reader):
        self.readers.pop(reader, None)


def put_latest(reader, text):
    try:
        reader.get_nowait()
    except queue.Empty:
        pass
    reader.put_nowait(text)


class Handler(http.server.BaseHTTPRequestHandler):
    """One request. All that touches the station is done in a turn."""
    protocol_version = "HTTP/1.1"
    # An answer is sent at once, and doesn't wait until its head was acknowledged.
    disable_nagle_algorithm = True

    def __init__(self, pages, *words):
        self.pages = pages
        super().__init__(*words)

    def log_message(self, *_):
        """Says nothing of each request."""

    def is_from_here(self):
        """Whether the page was asked for by an address, or a name of this machine: a page of somebody else's that leads
        a browser here has another name."""
        host = urllib.parse.urlsplit(f"//{self.headers.get('Host', '')}").hostname or ""
        return host == "localhost" or host.replace(".", "").isdecimal() or ":" in host

    def give(self, status, body=b"", kind="application/json"):
        self.send_response(status)
        self.send_header("Content-Type", f"{kind}; charset=utf-8")
        self.send_header("Content-Length", str(len(body)))
        self.send_header("Content-Security-Policy", POLICY)
        self.send_header("Cache-Control", "no-cache")
        self.end_headers()
        self.wfile.write(body)

    def do_GET(self):
        asked = urllib.parse.urlsplit(self.path)
        name, query = asked.path.removeprefix("/"), urllib.parse.parse_qs(asked.query)
        if not self.is_from_here():
            self.give(403)
        elif name == "live":
            self.stream(query.get("by", [""])[0])
        elif name in self.pages.more:
            self.give_answer(self.pages.turns.put, lambda reply: reply(self.pages.more[name](query)))
        else:
            self.file(name or "index.html")

    def give_answer(self, turn, deal):
        """Gives what is answered in a turn; where that is None there is no such thing."""
        answers = queue.Queue()
        turn(lambda: deal(answers.put))
        try:
            answer = answers.get(timeout=PATIENCE)
        except queue.Empty:
            self.give(504)
            return
        self.give(404 if answer is None else 200, json.dumps(answer).encode())

    def file(self, name):
        """A file of the page. No other is given, whatever the name."""
        path = SHARED.get(name, PAGE / name)
        names = {each.name for each in PAGE.iterdir()} | set(SHARED)
        if name in names and path.suffix in KINDS:
            self.give(200, path.read_bytes(), KINDS[path.suffix])
        else:
            self.give(404)

    def stream(self, by):
        """Tells what is to be shown, as it changes, until the reader goes."""
        reader = queue.Queue(1)
        self.send_response(200)
        self.send_header("Content-Type", "text/event-stream")
        self.send_header("Cache-Control", "no-store")
        self.end_headers()
        self.pages.turns.put(lambda: self.pages.come(reader, by))
        try:
            while True:
                self.wfile.write(self.next(reader).encode())
                self.wfile.flush()
        except OSError:
            self.close_connection = True
        finally:
            self.pages.turns.put(lambda: self.pages.go(reader))

    def next(self, reader):
        try:
            return f"data: {reader.get(timeout=SILENCE)}\n\n"
        except queue.Empty:
            return "event: beat\ndata: \n\n"

    def do_POST(self):
        """What a person asks for: JSON, so that no form of another page can ask for it."""
        length = self.headers.get("Content-Length", "")
        is_json = self.headers.get("Content-Type", "").startswith("application/json")
        if not self.is_from_here() or not is_json or not length.isdecimal() or int(length) > MOST_BYTES:
            self.close_connection = True
            self.give(403)
            return
        try:
            asked = json.loads(self.rfile.read(int(length)))
        except (ValueError, RecursionError):
            asked = None
        if self.path != "/do" or not isinstance(asked, dict):
            self.give(400)
            return
        self.give_answer(self.pages.turns.hurry, lambda reply: self.pages.do(asked, reply))
