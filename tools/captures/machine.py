"""The programs that are run: usbtrace, tshark, umockdev-run and a C compiler; and how a run of one ends."""
import collections
import os
import pathlib
import resource
import shutil
import subprocess
import tempfile
import time

ROOT = pathlib.Path(__file__).resolve().parent.parent.parent
HERE = pathlib.Path(__file__).resolve().parent
ROWS = ROOT / "rows"
# How long a run may take: seconds of processor time, and how many times that by the clock, since machines are busy.
SECONDS, BY_THE_CLOCK = 60, 6
# Debian's packages.
PACKAGES = {"tshark": "tshark", "umockdev-run": "umockdev", "cc": "gcc", "pkg-config": "pkg-config", "libusb-1.0": "libusb-1.0-0-dev"}

# How a run ended: its status, what it printed, its seconds of processor time, and the kilobytes of memory that it had at most.
Ended = collections.namedtuple("Ended", "status out err seconds memory")


class Lacking(Exception):
    """A program or a library isn't there."""


def need(name):
    """The path of a program that a part needs."""
    found = shutil.which(name)
    if not found:
        raise Lacking(f"{name} isn't there (Debian's package {PACKAGES[name]})")
    return found


class Machine:
    """Runs programs in a folder of its own."""

    def __init__(self, program):
        self.program, self.place = program, tempfile.TemporaryDirectory(prefix="captures-")
        self.folder = pathlib.Path(self.place.name)
        noted = program.with_name(program.name + ".state")
        self.is_proved = noted.is_file() and noted.read_text().startswith("proved ")

    def file(self, name, data):
        """A file with these bytes."""
        path = self.folder / name
        path.write_bytes(data)
        return path

    def ran(self, words, given, environment=None):
        """How a run over a file ends. A status below 0 is a signal; one that doesn't end in time has that of SIGKILL."""
        with tempfile.TemporaryFile() as out, tempfile.TemporaryFile() as err, open(given, "rb") as stdin:
            begun = time.monotonic()
            process = subprocess.Popen(words, stdin=stdin, stdout=out, stderr=err, env=environment, preexec_fn=limited)
            status, used = None, None
            while status is None:
                pid, code, used = os.wait4(process.pid, os.WNOHANG)
                if pid:
                    status = process.returncode = os.waitstatus_to_exitcode(code)
                else:
                    if time.monotonic() - begun > BY_THE_CLOCK * SECONDS:
                        process.kill()
                    time.sleep(0.002)
            out.seek(0)
            err.seek(0)
            return Ended(status, out.read(), err.read(), used.ru_utime + used.ru_stime, used.ru_maxrss)

    def usbtrace(self, words, data):
        """How a word of usbtrace ends over these bytes."""
        with tempfile.NamedTemporaryFile(dir=self.folder) as given:
            given.write(data)
            given.flush()
            return self.ran([self.program, *words.split()], given.name)

    def built_driver(self):
        """The driver on libusb, built."""
        need("cc")
        made = subprocess.run([need("pkg-config"), "--cflags", "--libs", "libusb-1.0"], capture_output=True, text=True, check=False)
        if made.returncode:
            raise Lacking(f"libusb's header isn't there (Debian's package {PACKAGES['libusb-1.0']})")
        built = self.folder / "play"
        words = ["cc", "-std=c11", "-O2", "-Wall", "-Wextra", "-Werror", "-D_GNU_SOURCE", HERE / "play.c", "-o", built]
        subprocess.run([*words, *made.stdout.split()], check=True)
        return built


def limited():
    resource.setrlimit(resource.RLIMIT_CPU, (SECONDS, SECONDS))
