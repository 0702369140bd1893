"""How the page looks at two widths and in two themes: nothing cut off, thrown or fetched, and enough contrast; and its
pictures."""
import jobs
import told

# What GUIDE.md shows: the example, and the entry at the cursor.
PICTURES = {'blend': 23, 'site': 61}

NAMES = 'h1, h2, button, select, td, th, bdi, li, #seal, #counts, #legend span, .note, .small, p'
SHORT = '.map(each => each.textContent.slice(0, 40))'
# Texts that don't fit into their own box.
CUT = """[...document.querySelectorAll('%s')]
    .filter(each => each.offsetParent !== null && !each.closest('#entries'))
    .filter(each => getComputedStyle(each).display !== 'inline' && getComputedStyle(each).overflowX !== 'visible')
    .filter(each => each.scrollWidth > each.clientWidth + 1)""" % NAMES + SHORT
# Texts that reach out of their card.
OUT = """[...document.querySelectorAll('.card *')]
    .filter(each => each.children.length === 0 && each.offsetParent !== null)
    .filter(each => !each.closest('.pane, #entries, #chart, #ruler, .scroll, code'))
    .filter(each => { const box = each.getBoundingClientRect(), card = each.closest('.card').getBoundingClientRect();
      return box.width > 0 && (box.right > card.right + 1 || box.left < card.left - 1); })""" + SHORT
# Texts that reach out of the chart.
CHARTED = """[...document.querySelectorAll('#chart text')]
    .filter(each => { const box = each.getBBox(), view = each.ownerSVGElement.viewBox.baseVal;
      return box.x < 0 || box.x + box.width > view.width; })""" + SHORT
# Strip and panes have one width, so that one cursor stands in one line.
ALIGNED = """(() => { const wide = each => document.querySelector(each).clientWidth;
    return ['#batches', '#modules'].map(wide).filter(each => each > 0).every(each => each === wide('#ruler')); })()"""
CONTRAST = """(() => {
    const style = getComputedStyle(document.documentElement);
    const part = (colour, k) => parseInt(colour.slice(k, k + 2), 16) / 255;
    const linear = part => (part <= 0.03928 ? part / 12.92 : ((part + 0.055) / 1.055) ** 2.4);
    const light = name => { const colour = style.getPropertyValue(`--${name}`).trim();
      return 0.2126 * linear(part(colour, 1)) + 0.7152 * linear(part(colour, 3)) + 0.0722 * linear(part(colour, 5)); };
    const [high, low] = [light('%s'), light('%s')].sort((one, two) => two - one);
    return (high + 0.05) / (low + 0.05); })()"""
# Each colour of texts with the grounds on which they stand.
GROUNDS = {'ink': ('ground', 'lane', 'full', 'move', 'held', 'pause'), 'faint': ('ground', 'lane'), 'run-ink': ('run',),
           'hold-ink': ('hold',), 'loud-ink': ('stop', 'left', 'abort'), 'cursor': ('ground',), 'good': ('page',),
           'stop': ('ground',), 'abort': ('ground', 'lane')}


def check(checks):
    for name, files in {**told.sets(checks), 'find': jobs.finder(checks), 'found': jobs.finder(checks)[1:]}.items():
        for wide in (1280, 390):
            checks.page.size(wide, 900)
            checks.open(*files)
            checks.run('page.go(%d)' % PICTURES.get(name, 8))
            checks.page.settle()
            title = '%s at %d: nothing ' % (name, wide)
            checks.is_true(title + 'too wide', 'document.documentElement.scrollWidth <= innerWidth')
            checks.is_true(title + 'out of line', ALIGNED)
            for what, code in (('cut off', CUT), ('out of its place', OUT), ('out of the chart', CHARTED)):
                checks.gives(title + what, code, [])
    check_contrast(checks)


def check_contrast(checks):
    """Each text's colour against what it stands on, in both themes."""
    for theme in ('light', 'dark'):
        checks.page.size(1280, 900, theme == 'dark')
        checks.page.begin(checks.url)
        for text, grounds in GROUNDS.items():
            for ground in grounds:
                ratio = checks.run(CONTRAST % (text, ground))
                checks.that('%s on %s, %s: contrast %.1f' % (text, ground, theme, ratio), ratio >= 4.5)
    checks.page.size(1280, 900)


def check_silence(checks):
    events = [(each.get('method'), each.get('params')) for each in checks.page.told]
    asked = [params['request']['url'] for method, params in events if method == 'Network.requestWillBeSent']
    others = [url for url in asked if not url.startswith(('file:', 'data:image/png', 'about:'))]
    checks.that('nothing is fetched but files of the page, of %d' % len(asked), not others, others)
    thrown = [params for method, params in events if method in ('Runtime.exceptionThrown', 'Log.entryAdded')]
    checks.that('nothing was thrown or complained of', not thrown, thrown[:2])


def take(checks, folder):
    """The pictures that GUIDE.md shows."""
    folder.mkdir(parents=True, exist_ok=True)
    checks.page.send('Emulation.setScrollbarsHidden', hidden=True)
    for name, entry in PICTURES.items():
        for wide in (1280, 390):
            checks.page.size(wide, 900)
            checks.open(*told.sets(checks)[name])
            checks.run('page.go(%d)' % entry)
            checks.page.picture(folder / ('%s-%d.png' % (name, wide)))
