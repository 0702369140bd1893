"""The page in a headless Chromium, over a plant that runs: what is enabled is what `pol` would do, presses and keys do it,
and it can be read at each width, in each language, light and dark."""
import json
import sys
import time
import unittest

from adapters.codes import COMMANDS
from checks.broker import PATIENCE
from checks.plants import LEAD, SHIFT, Running
from checks.reading import STATION

sys.path.append(str(STATION.parent / "viewer" / "checks"))

from browser import Browser, NoBrowser

DONE = {"done": True}
READY = "document.body && document.body.dataset.ready === 'yes'"
# What stands on the page, as a test reads it: each button's deed, by whether it is enabled.
BUTTONS = """Object.fromEntries([...document.querySelectorAll('button[data-deed]')]
    .map(each => [each.dataset.deed, !each.disabled]))"""
# The recipes whose fields don't show what their button does.
FIELDS = """[...document.querySelectorAll('[data-key^="recipe "]')].filter(each =>
    JSON.stringify(JSON.parse(each.querySelector('button').dataset.deed).tags) !== JSON.stringify(
    Object.fromEntries([...each.querySelectorAll('select')].map(own => [own.dataset.role, own.value]))))
    .map(each => each.dataset.key)"""
# The middle of a button, in the window.
MIDDLE = "(box => [box.x + box.width / 2, box.y + box.height / 2])(own.getBoundingClientRect())"
WIDE, NARROW, TALL = 1280, 390, 1400
# Whether a line over time is there and has some of a colour in it.
DRAWN = """(() => { const canvas = %s?.querySelector('canvas'); if (!canvas) return false;
    const wanted = getComputedStyle(document.documentElement).getPropertyValue('--%s').trim().slice(1);
    const { width, height } = canvas, copy = new OffscreenCanvas(width || 1, height || 1);
    const g = copy.getContext('2d', { willReadFrequently: true });
    if (width && height) g.drawImage(canvas, 0, 0);
    const { data } = g.getImageData(0, 0, copy.width, copy.height);
    const parts = [0, 2, 4].map(at => parseInt(wanted.slice(at, at + 2), 16));
    for (let at = 0; at < data.length; at += 4) if (parts.every((part, k) => data[at + k] === part)) return true;
    return false; })()"""
# How light a colour is, and how far text stands off its ground (WCAG 2).
CONTRAST = """(() => {
  const parts = text => text.match(/[\\d.]+/g).map(Number);
  const light = text => { const [r, g, b] = parts(text).map(part => part / 255)
    .map(part => part <= 0.03928 ? part / 12.92 : ((part + 0.055) / 1.055) ** 2.4);
    return 0.2126 * r + 0.7152 * g + 0.0722 * b; };
  const ground = each => { for (let at = each; at; at = at.parentElement) {
    const own = getComputedStyle(at).backgroundColor; if ((parts(own)[3] ?? 1) > 0) return own; }
    return "rgb(255,255,255)"; };
  return [...document.querySelectorAll('h1, h2, h3, p, span, b, button:enabled')].filter(each => each.offsetParent
    && [...each.childNodes].some(node => node.nodeType === 3 && node.data.trim())).map(each => {
    const [one, other] = [light(getComputedStyle(each).color), light(ground(each))].sort((a, b) => b - a);
    return [(one + 0.05) / (other + 0.05), each.textContent]; }).filter(([far]) => far < 4.5).slice(0, 5);
})()"""


class Page:
    """A browser that shows the station's page."""

    def __init__(self, url):
        try:
            self.browser = Browser()
        except NoBrowser as fault:
            raise AssertionError("this needs chromium (apt-get install chromium)") from fault
        self.url, self.run = url, self.browser.run

    def open(self, wide=WIDE, dark=False):
        self.browser.size(wide, TALL, dark)
        self.browser.send("Page.navigate", url=self.url)
        self.browser.wait(READY, PATIENCE)

    def until(self, code):
        self.browser.wait(code, PATIENCE)

    def choose(self, person):
        self.run(f"""(() => {{ const field = document.getElementById('by'); field.value = {json.dumps(person)};
            field.dispatchEvent(new Event('change')); }})()""")
        self.until(f"page.state.live.by === {json.dumps(person)}")

    def at(self, deed):
        return ("[...document.querySelectorAll('button[data-deed]')]"
                f".find(each => each.dataset.deed === {json.dumps(deed)})")

    def press(self, presses=1, **deed):
        """Presses the button of a deed as a hand would, once it is enabled; once more where it moved just then."""
        button = self.at(json.dumps(deed, separators=(",", ":")))
        self.until(f"{button} && !{button}.disabled")
        for _ in range(presses):
            self.press_one(button)
            while "moved just now" in self.text("said"):
                self.press_one(button)

    def press_one(self, button):
        self.run(f"{button}.scrollIntoView({{ block: 'center' }}); document.getElementById('said').textContent = ''")
        self.until(f"{button} && !(own => {{ const [x, y] = {MIDDLE}; return steady.isFresh(own, x + scrollX, y + scrollY);"
                   f" }})({button})")
        self.browser.press(*self.run(f"(own => {MIDDLE})({button})"))
        self.browser.settle()

    def enter(self, **deed):
        """Presses it by the keyboard, at once: a key needs no row that stands."""
        button = self.at(json.dumps(deed, separators=(",", ":")))
        self.until(f"{button} && !{button}.disabled")
        self.run(f"{button}.focus()")
        self.browser.key("Enter", code="Enter", windowsVirtualKeyCode=13, text="\r")

    def text(self, name):
        return self.run(f"document.getElementById('{name}').innerText")

    def faults(self):
        """What a script did wrong, or the browser complains of; a station that is gone isn't the page's fault."""
        told = [each["params"] for each in self.browser.told
                if each.get("method") in ("Runtime.exceptionThrown", "Log.entryAdded")]
        return [each for each in told if "net::ERR_" not in json.dumps(each)]

    def close(self):
        self.browser.close()


class Pages(unittest.TestCase):
    @classmethod
    def setUpClass(cls):
        cls.plant = Running()
        cls.addClassCleanup(cls.plant.close)
        cls.plant.up()
        cls.plant.until_ready()
        cls.page = Page(f"http://127.0.0.1:{cls.plant.port}/")
        cls.addClassCleanup(cls.page.close)

    def setUp(self):
        self.page.open()
        self.page.choose(LEAD)
        self.addCleanup(lambda: self.assertEqual(self.page.faults(), []))

    def enabled(self, by):
        """What `pol` would do for a person now, by deeds."""
        live = self.plant.live(by)
        found = {}
        for batch in live.told["batches"]:
            found |= {as_deed(do=deed, batch=batch["batch"]): why is None for deed, why in batch["presses"].items()}
        for module in live.told["modules"]:
            if module["ticket"] is None:
                found |= {as_deed(do=deed, tag=module["tag"]): why is None for deed, why in module["presses"].items()}
            for service in module["services"]:
                at = {"tag": module["tag"], "service": service["name"]}
                found |= {as_deed(do="desk", **at, command=code): bool(service["may"] & code)
                          for code in COMMANDS.values()}
                word = "Automatic" if service["view"]["Mode"] == "Operator" else "Operator"
                found[as_deed(do="choose", **at, word=word)] = service["may_choose"]
        for recipe in live.told["recipes"]:
            found[start_of(recipe)] = recipe["why"] is None
        return found | {as_deed(do="renew"): live.told["renew"] is None}

    def ask_buttons(self, by):
        """Waits until the page's buttons are enabled exactly as they should be; both go on meanwhile."""
        end = time.monotonic() + PATIENCE
        while (shown := self.page.run(BUTTONS)) != (wanted := self.enabled(by)):
            if time.monotonic() > end:
                differ = {key for key in shown.keys() | wanted.keys() if shown.get(key) != wanted.get(key)}
                raise AssertionError(f"the page and pol differ at {sorted(differ)[:6]}")
            time.sleep(0.1)
        self.assertEqual(self.page.run(FIELDS), [])
        return sum(shown.values())

    def test_buttons_are_enabled_exactly_where_pol_would_do_it(self):
        self.plant.start("looked", "refill", tank="TNK1")
        self.plant.until_state("TNK1", "fill", "Execute")
        self.plant.do("hold", batch="looked")
        self.plant.until_state("TNK1", "fill", "Held")
        self.plant.do("choose", tag="DOS2", service="dose", word="Operator")
        counts = {}
        for by in (LEAD, SHIFT):
            self.page.choose(by)
            counts[by] = self.ask_buttons(by)
        self.assertGreater(counts[LEAD], counts[SHIFT])
        self.ask_tips()
        self.page.choose("")
        self.page.until("page.state.live.by === '' && [...document.querySelectorAll('button[data-deed]')]"
                        ".every(each => each.disabled)")
        self.assertIn("at the desk", self.page.run("document.querySelector('button[data-deed]').title"))
        self.plant.do("choose", tag="DOS2", service="dose", word="Automatic")
        self.plant.do("thaw", batch="looked")
        self.plant.until_closed("looked")

    def ask_tips(self):
        """What closed buttons say: why, and what to do. So it is for ann, while a batch is held."""
        for deed, said in ((as_deed(do="desk", tag="MIX1", service="stir", command=4), "press “Put into Operator” first"),
                           (as_deed(do="desk", tag="MIX1", service="drain", command=4), "shift-never-drains"),
                           (as_deed(do="desk", tag="DOS2", service="dose", command=32), "wait for another state"),
                           (as_deed(do="abandon", batch="looked"), "doesn't let the person at the desk do this"),
                           (as_deed(do="hold", batch="looked"), "“Go on” ends that"),
                           (as_deed(do="stop", batch="looked"), "at one press")):
            self.assertIn(said, self.page.run(f"{self.page.at(deed)}.title"))

    def test_a_press_on_what_came_under_the_finger_just_now(self):
        """It isn't taken: the row of another batch stands there now. It is once it stood there for a moment."""
        page = self.page
        page.run("""(() => { const own = window.fetch, answer = { done: true };
            window.fetch = (url, ...more) => url === 'do' ? { ok: true, json: () => answer } : own(url, ...more);
            const { live } = page.state, presses = { hold: null, freeze: null, thaw: null, stop: null,
              abandon: null };
            const rest = { recipe: 'refill', bind: {}, watch: {}, hold: null, wait: null, waits: [], steps: [], presses,
              stands: { steps: [], arms: [], turns: [], passed: [], isStopping: false } };
            page.state.stream.close();
            live.batches = ['one', 'two'].map(batch => ({ ...rest, batch })); page.show(); })()""")
        at = "[...document.querySelectorAll('[data-deed]')].find(each => each.dataset.deed === '%s')"
        stop = at % as_deed(do="stop", batch="two")
        press = f"""(own => {{ const [clientX, clientY] = {MIDDLE};
            own.dispatchEvent(new MouseEvent('click', {{ bubbles: true, detail: 1, clientX, clientY }}));
            return document.getElementById('said').innerText; }})({stop})"""
        page.until(f"(own => {{ const [x, y] = {MIDDLE}; return !steady.isFresh(own, x + scrollX, y + scrollY); }})({stop})")
        self.assertIn("moved just now", page.run(f"page.state.live.batches.shift(); page.show(); {press}"))
        page.until(f"!{press}.includes('moved just now')")
        page.until("document.getElementById('said').innerText === 'You asked: Stop: done'")

    def test_a_recipe_is_started_held_exchanged_and_gone_on_with_by_presses(self):
        page, plant = self.page, self.plant
        recipe = plant.live().recipe("blend")
        batch, tag = recipe["batch"], recipe["assigned"]["doser"]
        page.press(**json.loads(start_of(recipe)))
        plant.until_state(tag, "dose", "Execute")
        page.enter(do="hold", batch=batch)
        plant.until_state(tag, "dose", "Held")
        page.until(f"document.getElementById('still').innerText.includes('{batch}')")
        page.until("document.getElementById('still-list').innerText.includes('Held already: dose of "
                   f"{tag}.')")
        self.assertIn(f"Batch {batch}: is held", page.text("still-list"))
        page.press(do="exchange_begin", tag="MIX1")
        self.pick("select[data-tag=MIX1]", "mixer-2.2.mtp")
        page.press(do="exchange_end", tag="MIX1", package="mixer-2.2.mtp")
        plant.until_state("MIX1", "stir", "Idle")
        page.press(do="thaw", batch=batch)
        plant.until_closed(batch)
        page.until(f"document.getElementById('closed-list').innerText.includes('{batch} Completed')")

    def pick(self, field, value):
        """Chooses in a field, once it is there."""
        self.page.until(f"document.querySelector({json.dumps(field)})")
        self.page.run(f"""(() => {{ const field = document.querySelector({json.dumps(field)}); field.value = '{value}';
            field.dispatchEvent(new Event('change', {{ bubbles: true }})); }})()""")

    def test_a_module_is_chosen_for_a_role(self):
        page, plant = self.page, self.plant
        recipe = plant.live().recipe("charge")
        deed = json.loads(start_of(recipe))
        other = next(tag for tag in recipe["roles"][0]["tags"] if tag != recipe["assigned"]["source"])
        self.pick("select[data-recipe=charge]", other)
        page.press(**deed | {"tags": {"source": other}})
        plant.until(lambda live: live.module(other)["holder"] == recipe["batch"], f"{other} is held")
        page.until(f"{FIELDS}.length === 0")
        plant.until_closed(recipe["batch"])

    def test_what_was_refused_stands_there_with_what_to_do(self):
        self.plant.do("unplug", by=SHIFT, tag="DOS1")
        self.plant.do("thaw", batch="none")
        self.page.until("document.getElementById('refused-list').innerText.includes('NoBatch')")
        text = self.page.text("refused-list")
        self.assertIn("by ann", text)
        self.assertIn("look for a mistyped name", text)

    def test_what_stands_still_says_why_and_what_may_be_pressed(self):
        page, plant = self.page, self.plant
        plant.start("torn", "refill", tank="TNK1")
        plant.until_state("TNK1", "fill", "Execute")
        plant.fault("TNK1", "restart", seconds=30)
        page.until("document.getElementById('still-list').innerText.includes('TNK1 isn\\'t connected')")
        page.until("document.getElementById('still-list').innerText.includes('TNK1 was restarted')")
        self.assertRegex(page.text("still-list"), "since .*, for ")
        # It is done at the second press.
        page.press(do="restarted", tag="TNK1", service="fill")
        self.assertIn("Press once more", page.text("said"))
        self.assertNotIn("torn", plant.live().outcomes())
        page.press(do="restarted", tag="TNK1", service="fill")
        plant.until_closed("torn", "Broken")
        page.until("document.getElementById('still').classList.contains('calm')")

    def test_by_keyboard(self):
        """Tab leads to a button that is enabled, Enter presses it, and what comes meanwhile doesn't take it away."""
        page, plant = self.page, self.plant
        recipe = plant.live().recipe("charge")
        deed = start_of(recipe)
        page.until(f"{page.at(deed)} && !{page.at(deed)}.disabled")
        page.run("document.activeElement.blur(); window.getSelection().removeAllRanges(); document.body.focus()")
        for _ in range(80):
            page.browser.key("Tab", code="Tab", windowsVirtualKeyCode=9)
            if page.run("document.activeElement.dataset.deed ?? ''") == deed:
                break
        self.assertEqual(page.run("document.activeElement.dataset.deed"), deed)
        self.assertNotEqual(page.run("getComputedStyle(document.activeElement).outlineStyle"), "none")
        plant.fault("TNK1", "lose", seconds=5)
        page.until("document.getElementById('still-list').innerText.includes('TNK1')")
        self.assertEqual(page.run("document.activeElement.dataset.deed"), deed)
        page.browser.key("Enter", code="Enter", windowsVirtualKeyCode=13, text="\r")
        plant.until_closed(recipe["batch"])
        plant.until_alarm("gone", False)

    def test_each_width_language_and_light(self):
        """With a chart and lines over time."""
        self.plant.start("wide", "blend", doser="DOS1", mixer="MIX1")
        self.plant.until_state("DOS1", "dose", "Execute")
        self.plant.do("hold", batch="wide")
        self.plant.until_state("DOS1", "dose", "Held")
        self.look_at_each_width()
        self.plant.do("thaw", batch="wide")
        self.plant.until_closed("wide")

    def look_at_each_width(self):
        for wide in (WIDE, NARROW):
            for dark in (False, True):
                for language, title in (("en", "What stands still"), ("de", "Was steht")):
                    self.page.open(wide, dark)
                    self.page.run(f"if (document.documentElement.lang !== '{language}')"
                                  " document.getElementById('language').click()")
                    self.page.until("document.querySelectorAll('[data-chart] .step.held').length")
                    self.page.until("document.querySelectorAll('.trend').length || innerWidth < 500")
                    self.page.browser.settle()
                    self.assertIn(title, self.page.text("still"))
                    self.assertLessEqual(self.page.run("document.documentElement.scrollWidth"), wide)
                    self.assertEqual(self.page.run(CONTRAST), [], (wide, dark))
        self.page.run("document.getElementById('language').click()")
        self.assertEqual(self.page.run("document.documentElement.lang"), "en")

    # What is drawn.

    def phase(self, batch, step):
        """What a step is in, as the chart of a batch shows it."""
        return f"document.querySelector('[data-chart=\"{batch}\"] .step[data-step={step}]')?.getAttribute('class')"

    def test_the_chart_of_a_batch_shows_what_is_done_active_and_awaited(self):
        page, plant = self.page, self.plant
        plant.start("charted", "blend", doser="DOS2", mixer="MIX1")
        page.until(f"{self.phase('charted', 'fill')}?.split(' ').includes('on')")
        plant.until_state("DOS2", "dose", "Execute")
        plant.do("hold", batch="charted")
        page.until(f"{self.phase('charted', 'fill')}.includes('held')")
        self.assertEqual(page.run(self.phase("charted", "empty")).split(), ["step"])
        plant.do("thaw", batch="charted")
        page.until(f"{self.phase('charted', 'stir')}?.includes('waits')")
        self.assertIn("done", page.run(self.phase("charted", "fill")))
        branches = "[...document.querySelectorAll('[data-key=\"batch charted\"] .branch')].map(each => each.innerText)"
        for step in ("stir", "flush"):
            page.until(f"{branches}.some(text => text.includes('{step}: '))")
        page.run("document.querySelector('[data-chart-of=charted]').click()")
        page.until("!document.querySelector('[data-chart=charted]')")
        plant.until_closed("charted")

    def test_lines_over_time_of_each_variable_and_service(self):
        page, plant = self.page, self.plant
        plant.start("trended", "refill", tank="TNK1")
        plant.until_closed("trended")
        row = "document.querySelector('[data-trends=TNK1] [data-key=\"{}\"]')"
        for name, colour in (("variable level", "trend"), ("service fill", "run")):
            page.until(DRAWN % (row.format(name), colour))
        for span, wanted in (("none", "=== 0"), ("whole", "> 3")):
            page.run(f"""(() => {{ const field = document.getElementById('span'); field.value = '{span}';
                field.dispatchEvent(new Event('change', {{ bubbles: true }})); }})()""")
            page.until(f"document.querySelectorAll('.trend canvas').length {wanted}")
        self.assertRegex(page.run(f"{row.format('variable level')}.innerText"), "level")

    def test_each_branch_that_waits_what_runs_on_and_what_is_nearly_full(self):
        """As a program tells it: the page is shown a plant in which it is so."""
        page, plant = self.page, self.plant
        plant.start("branched", "blend", doser="DOS1", mixer="MIX1")
        page.until(f"{self.phase('branched', 'fill')}")
        page.run("""(() => { const { live } = page.state, since = live.now - 60000;
            const batch = live.batches.find(each => each.batch === 'branched');
            batch.waits = [{ node: 3, wait: { wait: 'Unmet', step: 'stir' }, since },
              { node: 4, wait: { wait: 'Away', tag: 'DOS1' }, since }];
            const step = { code: 'unheld', batch: 'branched', step: 'stir', tag: 'MIX1', by: 'ModeForbids', since };
            const near = { code: 'near_history', since, deeds: ['renew'], presses: { renew: null } };
            live.still = [step, near, ...batch.waits.map(each => ({ code: 'batch', batch: 'branched', ...each }))];
            page.state.stream.close(); page.show(); })()""")
        text = page.text("still-list")
        for said in ("step stir at MIX1 runs on", "The history is nine tenths full", "Batch branched: waits: ",
                     "Batch branched: waits until mixer."):
            self.assertIn(said, text)
        self.assertEqual(page.run("document.querySelector('.alarm.red').innerText.includes('ModeForbids')"), True)
        self.assertTrue(page.run("[...document.querySelectorAll('#still button')].some(each => !each.disabled"
                                 " && each.dataset.deed === '{\"do\":\"renew\"}')"))
        for step in ("stir", "flush"):
            self.assertIn("waits", page.run(self.phase("branched", step)))
        plant.until_closed("branched")

    def test_the_file_is_renewed_by_two_presses(self):
        page, plant = self.page, self.plant
        entries = plant.live().told["entries"]
        page.press(presses=2, do="renew")
        page.until("document.getElementById('said').innerText.includes('a shorter file')")
        self.assertLess(plant.live().told["entries"], entries)

    def test_a_station_that_is_gone_is_told_and_comes_back(self):
        self.plant.kill()
        self.page.until("document.getElementById('link').classList.contains('old')")
        self.assertIn("what is shown is old", self.page.text("link"))
        self.plant.up()
        self.page.until("!document.getElementById('link').classList.contains('old')")
        self.plant.until_ready()


def as_deed(**deed):
    return json.dumps(deed, separators=(",", ":"))


def start_of(recipe):
    """The start of a recipe on the modules that stand there by themselves."""
    return as_deed(do="start", batch=recipe["batch"], recipe=recipe["recipe"], tags=recipe["assigned"])
