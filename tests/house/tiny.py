"""A tiny repository with this one's scripts, and a stand-in for the toolchain.

The stand-in writes down what it is asked and in which crate's folder, says which crates it
begins, takes a moment to make a program, which it then runs, and notices a second one of its kind in
the same moment. So the scripts can be tried from nothing many times. A program that it makes says how
its source read then, before the text that it is given.
"""

import os
import shutil
import subprocess
from contextlib import suppress

from common.harness import ROOT, SECONDS_ALLOWED

CRATES = "below:\nstatement: below\nhost staticlib: below\n"
SOURCES = {"below": "src/lib.rt", "statement": "src/main.rt", "host": "src/lib.rt"}

RT = """#!/bin/sh
kit={kit}
case $1 in
version) cat "$kit/version"; exit ;;
esac
crate=${{PWD##*/}}
echo "$1 $crate" >>"$kit/asked"
trap 'rmdir "$kit/busy"; exit 1' TERM
mkdir "$kit/busy" || {{ echo "$1 $crate" >>"$kit/collisions"; exit 1; }}
trap 'rmdir "$kit/busy" 2>/dev/null' EXIT
echo "rt: chose --jobs 2 for below"
echo "rt: chose --jobs 1 for $crate"
sleep 0.2
[ ! -e "$kit/broken" ] || {{ echo "this is not proved"; exit 1; }}
mkdir -p out
case $1 in
lib) echo made >"out/lib$crate.a"; exit ;;
esac
source=$(cat ../below/src/lib.rt src/main.rt)
printf '#!/bin/sh\\nprintf "%s "\\ncat\\n' "$source" >out/new
chmod +x out/new
mv out/new "out/$crate"
"out/$crate"
"""


def write(path, text, mode=0o644):
    path.parent.mkdir(parents=True, exist_ok=True)
    path.write_text(text)
    path.chmod(mode)


class Tiny:
    """The repository and the kit, in a folder of their own."""

    def __init__(self, folder):
        self.top, self.kit = folder / "repository", folder / "kit"
        shutil.copytree(ROOT / "scripts", self.top / "scripts")
        write(self.top / "crates.txt", CRATES)
        for crate in SOURCES:
            self.change(crate, crate)
        write(self.kit / "bin" / "rt", RT.format(kit=self.kit), 0o755)
        write(self.kit / "version", "stand-in 1\n")
        self.path = f"{self.kit / 'bin'}:{os.environ['PATH']}"

    def change(self, crate, text):
        """Writes the one source of a crate."""
        write(self.top / "crates" / crate / SOURCES[crate], text)

    def forget(self):
        """Removes all that was made."""
        for crate in SOURCES:
            shutil.rmtree(self.top / "crates" / crate / "out", ignore_errors=True)

    def asked(self):
        """What the stand-in was asked to make since the last look."""
        return self.taken("asked")

    def collisions(self):
        """What it was asked while it was at work."""
        return self.taken("collisions")

    def taken(self, name):
        """The lines of a file of the kit, which is gone afterwards."""
        with suppress(FileNotFoundError):
            lines = (self.kit / name).read_text().splitlines()
            (self.kit / name).unlink()
            return lines
        return []

    def start(self, *command, **others):
        """Starts a command of the repository, in a group of its own as a shell does."""
        pipes = dict.fromkeys(("stdin", "stdout", "stderr"), subprocess.PIPE)
        return subprocess.Popen(
            command, cwd=self.top, env={**os.environ, "PATH": self.path},
            start_new_session=True, **{**pipes, **others},
        )


def ends_of(processes, text=b"text"):
    """Exit status, output and complaint of processes that run at the same time."""
    ends = []
    for process in processes:
        out, complaint = process.communicate(text, timeout=SECONDS_ALLOWED)
        ends.append((process.returncode, out, complaint))
    return ends
