"""Turns: whatever thread something comes from, one thread deals with it, one thing after another."""
import heapq
import itertools
import queue
import threading
import time


class Turns:
    """Calls without words that wait for their turn. Only the thread that runs them touches what they touch, so that
    nothing needs a lock."""

    def __init__(self):
        self.waiting, self.due, self.order = queue.SimpleQueue(), [], itertools.count()
        self.hurried = queue.SimpleQueue()

    def put(self, deal):
        """Gives a call its turn. From any thread."""
        self.waiting.put((deal, None))

    def hurry(self, deal):
        """Gives a call its turn before all others: a person waits for it. From any thread."""
        self.hurried.put(deal)
        # It ends a wait.
        self.put(lambda: None)

    def hand(self, deal):
        """Gives a call its turn, and comes back once it was made: what hands it on may forget it then. From any thread
        but the one that runs; where the call fails, this never comes back."""
        is_dealt_with = threading.Event()
        self.waiting.put((deal, is_dealt_with))
        is_dealt_with.wait()

    def later(self, seconds, deal):
        """Gives a call its turn once so many seconds have passed. From the thread that runs."""
        heapq.heappush(self.due, (time.monotonic() + seconds, next(self.order), deal))

    def run(self, seconds):
        """Makes the calls whose turn comes within so many seconds."""
        self.until(lambda: False, seconds)

    def until(self, is_so, seconds):
        """Makes calls until something is so, and gives whether it is: at the latest after so many seconds."""
        end = time.monotonic() + seconds
        while not is_so():
            left = end - time.monotonic()
            if left <= 0:
                return False
            self.make_one(left)
        return True

    def make_one(self, seconds):
        """Makes the next call, if there is one within so many seconds."""
        if not self.hurried.empty():
            self.hurried.get()()
            return
        until_due = self.due[0][0] - time.monotonic() if self.due else seconds
        if until_due <= 0:
            heapq.heappop(self.due)[2]()
            return
        try:
            deal, is_dealt_with = self.waiting.get(timeout=min(seconds, until_due))
        except queue.Empty:
            return
        deal()
        if is_dealt_with:
            is_dealt_with.set()
