"""What the scripts that measure the program share: journals that are made once, and what one run takes."""
import os
import pathlib
import subprocess
import sys
import tempfile

HERE = pathlib.Path(__file__).resolve().parent
sys.path.insert(0, str(HERE.parent / "tools"))

from scripts import script

PROGRAM = HERE.parent / "crates" / "pol" / "out" / "pol"
WORK = pathlib.Path(os.environ.get("POL_BENCH", tempfile.gettempdir() + "/pol-bench"))
# The environment in which ./pol runs the program.
ENVIRONMENT = {**script("tools/run").LARGE_PAGES, **os.environ}


def made(name, make):
    """The file of this name in the folder of the inputs, which `make` writes where it isn't there."""
    WORK.mkdir(parents=True, exist_ok=True)
    path = WORK / name
    if not path.exists():
        with open(f"{path}.new", "w") as file:
            make(file)
        os.replace(f"{path}.new", path)
    return path


def journal(kind, size):
    words = [HERE / "journals", kind, str(size), "1"]
    return made(f"{kind}-{size}.jsonl", lambda file: subprocess.run(words, stdout=file, check=True))


def once(command, path, environment=ENVIRONMENT):
    """Processor seconds and the most memory in MiB of one run."""
    with open(path) as source:
        child = subprocess.Popen(command, stdin=source, stdout=subprocess.DEVNULL, env=environment)
        _, status, usage = os.wait4(child.pid, 0)
    if status:
        sys.exit(f"{command[0]}: status {status} on {path}")
    return usage.ru_utime + usage.ru_stime, usage.ru_maxrss / 1024
