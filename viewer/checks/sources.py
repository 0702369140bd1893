"""What stands in viewer/ itself: the docs' words as they are now, German for each, the forms of the house, and no
source of a proof."""
import hashlib
import re
import subprocess

WIDE, LONG = 120, 800
PARTS = {'rules': ('holds', 'remedy'), 'waits': ('for', 'look')}
# It can be said of a Stop and of a Hold.
ONE_WORD_FOR_TWO = re.compile('anh[aä]lt|angehalten|anhielt')


def check(checks):
    viewer = checks.repository / 'viewer'
    made = subprocess.run([viewer / 'words-from-docs'], capture_output=True, text=True, check=True).stdout
    checks.that('docs.js has the words of docs/ as they are now', made == (viewer / 'source' / 'docs.js').read_text(),
                'run viewer/words-from-docs --write')
    files = [path for path in viewer.rglob('*') if path.is_file() and '__pycache__' not in path.parts]
    proved = [path for path in files if path.suffix in ('.rt', '.antt')]
    checks.that('nothing that is proved stands in viewer/', not proved, proved)
    checks.that('no large file stands in viewer/', all(path.stat().st_size < 100_000 for path in files))
    for path in sorted(files):
        if path.name == 'docs.js' or path.suffix in ('.jsonl', '.journal', '.plant', '.txt'):
            continue
        lines = path.read_text().splitlines()
        wide = [k + 1 for k, line in enumerate(lines) if len(line) > WIDE and 'Content-Security' not in line]
        checks.that('%s: lines and length' % path.relative_to(viewer), not wide and len(lines) < LONG, wide)
        if path.suffix == '.js':
            checks.that('%s: a head comment' % path.name, lines[0].startswith('// ') and '"use strict";' in lines[:9])
            checks.same('%s: functions under 40 lines' % path.name, long_functions(lines), [])
    check_languages(checks)


def long_functions(lines):
    """Where functions of 40 lines or more begin: by their indent, which the forms of the house fix."""
    found = []
    for k, line in enumerate(lines):
        indent = len(line) - len(line.lstrip())
        is_function = 2 <= indent <= 4 and line.endswith('{') and '(' in line
        if not is_function or line.lstrip().startswith(('class', 'const')):
            continue
        end = next((n for n in range(k + 1, len(lines)) if lines[n].startswith(' ' * indent + '}')), len(lines))
        if end - k >= 40:
            found.append(k + 1)
    return found


def english_of(table, row):
    """The English texts that a German row tells, in its order."""
    return [row[part] for part in PARTS[table]] if table in PARTS else [row]


def check_german(checks):
    """Behind each German text stands the sum of the English that it tells: a change of the English alone fails here."""
    docs, german = checks.run('docs'), checks.run('german')
    for table, rows in german.items():
        old = []
        for key, (*_, sum_kept) in rows.items():
            text = '\n'.join(english_of(table, docs[table][key]))
            sum_now = hashlib.sha256(text.encode()).hexdigest()[:8]
            if sum_kept != sum_now:
                old.append('the English of %s changed: look at the German, then write %s behind it' % (key, sum_now))
        checks.same('the German of %s is of the English as it is' % table, old, [])
    both = checks.run('Object.values(labels).map(([, text]) => text).concat(JSON.stringify(german))')
    checks.same('Stop and Hold have a German word each', [text for text in both if ONE_WORD_FOR_TWO.search(text)], [])


def check_languages(checks):
    checks.page.begin(checks.url)
    check_german(checks)
    for table in ('rules', 'waits', 'forbids', 'events', 'does'):
        lacking = checks.run('Object.keys(docs.%s).filter(key => !german.%s[key])' % (table, table))
        checks.same('German for all ' + table, lacking, [])
    checks.same('each label in two languages', checks.run("""Object.entries(labels)
        .filter(([, both]) => both.length !== 2 || both.some(text => typeof text !== 'string' || text === ''))
        .map(([key]) => key)"""), [])
    checks.same('each label names the same values in both', checks.run("""Object.entries(labels)
        .filter(([, [one, two]]) => {
          const named = text => (text.match(/\\{[^}]*\\}/g) ?? []).sort().join();
          return named(one) !== named(two);
        }).map(([key]) => key)"""), [])
    checks.same('each label that the page names is there', checks.run("""
        [...document.querySelectorAll('[data-say], [data-name]')]
          .map(each => each.dataset.say ?? each.dataset.name).filter(key => !Object.hasOwn(labels, key))"""), [])
