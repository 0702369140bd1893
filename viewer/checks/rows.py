"""The worked journals of crates/pol_examples with their output, read from the sources of its tests: they stand once."""
import re

TEXT = r'(?:r#"(.*?)"#|"((?:[^"\\]|\\.)*)")'
JOURNAL = re.compile(r'title:\s*"([^"]*)",\s*input:\s*' + TEXT + r',\s*output:\s*' + TEXT, re.S)
ESCAPE = re.compile(r'\\(x[0-9a-fA-F]{2}|u\{[0-9a-fA-F]+\}|.)', re.S)
PLAIN = {'n': '\n', 'r': '\r', 't': '\t', '0': '\0'}


def unescaped(found):
    sign = found.group(1)
    if sign[0] in 'xu' and len(sign) > 1:
        return chr(int(sign[1:].strip('{}'), 16))
    return PLAIN.get(sign, sign)


def text_of(raw, cooked):
    return raw if cooked == '' and raw != '' else ESCAPE.sub(unescaped, cooked)


def journals(repository):
    """Each journal's file, title, input and output. In audits.rt the input is a history and the output its verdict."""
    found = []
    for path in sorted((repository / 'crates' / 'pol_examples' / 'src').glob('*.rt')):
        for title, *texts in JOURNAL.findall(path.read_text()):
            found.append((path.stem, title, text_of(*texts[:2]), text_of(*texts[2:])))
    return found
