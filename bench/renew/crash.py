"""crash.py RENEW FOLDER PROGRAM CALL [ROOM]: runs the change of files in FOLDER as the script RENEW does, and ends as a
crash does before the call of this number, of those that change a file or begin a program.

With ROOM the power goes then. ROOM/least gets what the disk has for sure: of each file the bytes and of each folder the
names that were synced last. ROOM/names gets the names as they are, with those bytes; the disk may have had them too.
"""
import importlib.machinery
import importlib.util
import os
import pathlib
import signal
import stat
import subprocess
import sys

sys.dont_write_bytecode = True
CALLS = ("rename", "fsync", "mkdir", "rmdir", "unlink", "chmod", "chown")


class Disk:
    """What was brought to the disk of a folder and all that is in it, by the numbers of its files and folders."""

    def __init__(self, folder):
        self.folder, self.names, self.bytes, self.held = folder, {}, {}, []
        for at, _, files in os.walk(folder):
            for path in (at, *(os.path.join(at, name) for name in files)):
                self.bring(path)

    def bring(self, path):
        """Notes a file or a folder as it is."""
        number = os.stat(path).st_ino
        if os.path.isdir(path):
            self.names[number] = {each.name: os.lstat(each) for each in pathlib.Path(path).iterdir()}
        else:
            self.bytes[number] = pathlib.Path(path).read_bytes()
        # What is open keeps its number, so nothing else gets it.
        self.held.append(os.open(path, os.O_RDONLY))

    def leave(self, found, to, names_of):
        """Writes what is there of a file or a folder; what it is called in a folder another call says."""
        if not stat.S_ISDIR(found.st_mode):
            to.write_bytes(self.bytes.get(found.st_ino, b""))
            to.chmod(found.st_mode & 0o777)
            return
        to.mkdir()
        for name, each in names_of(found.st_ino).items():
            self.leave(each, to / name, names_of)

    def lose_power(self, room):
        """Writes what is there at least, and what may be there."""
        now = Disk(self.folder).names
        for name, names in (("least", self.names), ("names", now)):
            self.leave(os.stat(self.folder), room / name, lambda number: names.get(number, {}))


class Crash:
    """A process that ends itself before one of its calls."""

    def __init__(self, call, disk, room):
        self.left, self.disk, self.room = call, disk, room

    def counted(self, call):
        """The call, counted; one that syncs is noted."""
        def counting(*words, **named):
            self.left -= 1
            if self.left == 0:
                self.end()
            done = call(*words, **named)
            if self.disk and call.__name__ == "fsync":
                self.disk.bring(os.readlink(f"/proc/self/fd/{words[0]}"))
            return done
        return counting

    def end(self):
        if self.disk:
            self.disk.lose_power(self.room)
        os.kill(os.getpid(), signal.SIGKILL)


def main(renew, folder, program, call, room=None):
    loader = importlib.machinery.SourceFileLoader("renew", renew)
    script = importlib.util.module_from_spec(importlib.util.spec_from_loader("renew", loader))
    loader.exec_module(script)
    crash = Crash(int(call), Disk(folder) if room else None, room and pathlib.Path(room))
    for name in CALLS:
        setattr(os, name, crash.counted(getattr(os, name)))
    subprocess.run = crash.counted(subprocess.run)
    script.main([folder, "--program", program])


if __name__ == "__main__":
    main(*sys.argv[1:])
