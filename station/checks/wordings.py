"""The page's own words: each in English and in German, of the English as it is; and each that is asked for is there."""
import hashlib
import json
import re
import unittest

from adapters.told import REFUSED, UNANSWERED
from checks.reading import STATION
from operating.deeds import BATCH_DEEDS
from operating.station import NEAR

PAGE, VIEWER = STATION / "page", STATION.parent / "viewer" / "source"
OWN = (PAGE / "own-words.js").read_text()
MOST_WIDE, MOST_LINES = 120, 400
# It can be said of a Stop and of a Hold, so it is said of neither.
ONE_WORD_FOR_TWO = re.compile("anh[aä]lt|angehalten|anhielt")
CODE = re.compile(r'alarms\.set\(\([^()]*\), "(\w+)"(?: if \w+ else "(\w+)")?')
ORDER_CODE = re.compile(r'(?:self\.stand|self\.alarm)\(order, "(\w+)"')
# What a command may have against it that isn't written out in the code; and what else stands on top of the page.
OTHERS = (REFUSED, "no_effect", UNANSWERED)
# The events that buttons ask for, and what these buttons never run into.
BUTTONS = ("freeze", "thaw", "stop", "abandon", "desk", "start", "unplug", "exchange_begin")
NEVER_ASKED = {"NoBatch", "NoService", "NoRecipe", "BatchKnown", "RoleUnknown", "WatchedStep", "WrongType"}
MORE = ("unheld", "left", *NEAR.values())


def entries():
    """The texts of each key, as they stand in the file."""
    found = re.findall(r"^  (\w+): \[(.*?)\],$", OWN, re.M | re.S)
    return {key: json.loads("[" + re.sub(r'"\s*\+\s*"', "", texts) + "]") for key, texts in found}


def places(text):
    return sorted(re.findall(r"\{[^}]*\}", text))


def sources(folder, suffix):
    return {path.name: path.read_text() for path in sorted(folder.glob(f"*{suffix}"))}


def alarms():
    """The codes of all alarms, as the station's code names them."""
    operating = "".join(sources(STATION / "operating", ".py").values())
    found = {code for codes in CODE.findall(operating) for code in codes if code}
    return {*found, *MORE, *(f"command_{code}" for code in (*ORDER_CODE.findall(operating), *OTHERS))}


class Words(unittest.TestCase):
    def test_each_has_both_languages_and_the_sum_of_its_english(self):
        self.assertGreater(len(entries()), 100)
        self.assertEqual(len(entries()), len(re.findall(r"^  \w+: \[", OWN, re.M)), "a key stands there twice")
        for key, texts in entries().items():
            self.assertEqual([bool(text.strip()) for text in texts], [True] * 3, f"{key} lacks a text")
            total = hashlib.sha256(texts[0].encode()).hexdigest()[:8]
            self.assertEqual(texts[2], total, f"the English of {key} changed: look at the German, then write {total}")

    def test_both_languages_tell_the_same_values(self):
        for key, (english, german, _) in entries().items():
            self.assertEqual(places(english), places(german), key)
            self.assertIsNone(ONE_WORD_FOR_TWO.search(german), key)

    def test_none_is_one_of_the_other_pages(self):
        others = set(re.findall(r"(?:^  |, )(\w+): \[", (VIEWER / "labels.js").read_text(), re.M))
        self.assertEqual(others & set(entries()), set())

    def test_each_that_the_page_names_is_there(self):
        labels = set(re.findall(r"(\w+): \[", (VIEWER / "labels.js").read_text())) | set(entries())
        text = "".join(text for name, text in sources(PAGE, ".js").items() if name != "own-words.js")
        named = set(re.findall(r'(?:say|calm)\("(\w+)"', text)) | set(
            re.findall(r'data-say="(\w+)"', (PAGE / "index.html").read_text()))
        self.assertEqual(named - labels, set())

    def test_each_alarm_and_each_deed_has_its_words(self):
        self.assertGreater(len(alarms()), 20)
        lacking = {f"{start}_{code}" for code in alarms() for start in ("alarm", "look")} - set(entries())
        self.assertEqual(lacking, set())
        deeds = re.search(r"known = \{(.*?)\}\n", (STATION / "operating" / "deeds.py").read_text(), re.S)[1]
        named = {*re.findall(r'"(\w+)": self', deeds), *BATCH_DEEDS}
        self.assertEqual({f"deed_{deed}" for deed in named} - set(entries()), set())

    def test_each_rule_that_may_close_a_button_has_its_words(self):
        """Those of the events that the page's buttons ask for; what a button never asks, such as a wrong ticket, has
        the words of the documents."""
        rules = re.findall(r"^    (\w+): \{$", (VIEWER / "docs.js").read_text().partition("waits: {")[0], re.M)
        known = {key.removeprefix("why_") for key in entries() if key.startswith("why_")}
        self.assertEqual(known - set(rules), {"denied", "deniedBy"})
        table = (STATION.parent / "docs" / "RULES.md").read_text()
        named = {rule for event in BUTTONS for row in re.findall(rf"^\| `{event}` \| (.*?) \|", table, re.M)
                 for rule in re.findall(r"[A-Z]\w+", row)}
        self.assertEqual(named - known - NEVER_ASKED, set())

    def test_each_alarm_that_has_words_is_one(self):
        known = {key.removeprefix("alarm_") for key in entries() if key.startswith("alarm_")}
        self.assertEqual(known - alarms(), set())


class Files(unittest.TestCase):
    def test_lines_and_lengths(self):
        files = {**sources(PAGE, ".js"), **sources(PAGE, ".css"), **sources(PAGE, ".html"),
                 **sources(STATION / "operating", ".py"), "run": (STATION / "run").read_text(),
                 "demo": (STATION / "demo").read_text()}
        for name, text in files.items():
            lines = text.splitlines()
            self.assertLess(len(lines), MOST_LINES, name)
            self.assertEqual([line for line in lines if len(line) > MOST_WIDE], [], name)

    def test_each_script_says_what_it_is_for_and_is_strict(self):
        for name, text in sources(PAGE, ".js").items():
            self.assertTrue(text.startswith("// ") and '"use strict";' in text[:800], name)
