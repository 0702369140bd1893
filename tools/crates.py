"""The crates of this repository: what crates.txt says of them, sums of their texts, and copies of some of them in which
`rt` works."""
import hashlib
import pathlib
import re
import shutil

ROOT = pathlib.Path(__file__).resolve().parent.parent
# What a check of a crate reads, and what a run of a program reads beside it.
CHECKED = ("src", "specs", "proofs")
RUN = ("stdin", "stdout", "args", "status", "data")
# A line that is a comment, by the end of its file's name.
COMMENT = {".rt": re.compile(rb"^ *//.*\n", re.M), ".antt": re.compile(rb"^ *--.*\n", re.M)}


def uses(root=ROOT):
    """Each crate of crates.txt, in its order, with the crates of the repository that it names."""
    lines = [line.partition("#")[0].partition(":") for line in (root / "crates.txt").read_text().splitlines()]
    named = {words.split()[0]: below.split() for words, colon, below in lines if colon}
    return {name: [low for low in below if low in named] for name, below in named.items()}


def closure(names, graph):
    """These crates and all that they stand on, the lowest first."""
    ordered = []

    def add(name):
        if name not in ordered:
            for low in graph[name]:
                add(low)
            ordered.append(name)

    for name in names:
        add(name)
    return ordered


def files(folder, parts):
    """Each file in these folders of a folder, by its path in it, in byte order."""
    found = [path for part in parts for path in (folder / part).rglob("*") if path.is_file()]
    return sorted((str(path.relative_to(folder)), path) for path in found)


def sum_of(pairs):
    """A sum of names and bytes, short enough for a line of a table."""
    total = hashlib.sha256()
    for name, data in pairs:
        total.update(f"{name} {len(data)}\n".encode() + data)
    return total.hexdigest()[:20]


def uncommented(file):
    """A file's bytes without the lines that are comments, which no check reads."""
    form, data = COMMENT.get(file.suffix), file.read_bytes()
    return form.sub(b"", data) if form else data


def text_sum(name, root=ROOT):
    """The sum of a crate's checked text, whatever its comments say."""
    return sum_of((path, uncommented(file)) for path, file in files(root / "crates" / name, CHECKED))


def lay_crate(name, root, folder):
    """Copies what is checked and run of a crate."""
    for part in (*CHECKED, *RUN):
        source, copy = root / "crates" / name / part, folder / "crates" / name / part
        if source.is_dir():
            shutil.copytree(source, copy)
        elif source.is_file():
            copy.parent.mkdir(parents=True, exist_ok=True)
            shutil.copyfile(source, copy)


def lay(names, folder, root=ROOT):
    """Lays these crates and all below them into an empty folder, a repository of its own, and gives their names."""
    laid = closure(names, uses(root))
    for name in laid:
        lay_crate(name, root, folder)
    lines = (root / "crates.txt").read_text().splitlines(keepends=True)
    kept = [line for line in lines if (found := re.match(r"(\w+)[^#]*:", line)) and found[1] in laid]
    (folder / "crates.txt").write_text("".join(kept))
    shutil.copyfile(root / "HANDLES", folder / "HANDLES")
    # It is the top of a repository, whatever stands above it.
    (folder / ".git").mkdir()
    return laid
