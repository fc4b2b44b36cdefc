#!/usr/bin/env python3
"""Refuses the allocations of a program, and says what comes of it.

    tools/refuse_allocations.py BINARY SCENARIO..        usbtrace, by each of its words over each scenario
    tools/refuse_allocations.py --same BINARY WORD..     another program, which has to print the same each time

A run is made undisturbed, which counts the calls of malloc and realloc, and then again for each call: once this call alone is
refused, and once this call and all behind it. So with the threads that are made. What a run comes to is one of three classes:

    unharmed   it prints what the undisturbed run does, and ends as that does
    early      a beginning of that, of whole lines, or records of `capture`, then `usbtrace: out of memory` and status 1; of `left`,
               `draw`, `explain`, `test`, `device` and `describe` nothing
    wrong      all else: a cut line, another message or status, a signal, or no end within --seconds (10) of processor time, or
               within six times that by the clock

Prints a line for each scenario and word, and one for each wrong run; status 1 where there is one. With --same only `unharmed`
is right, and one call at a time is refused: for `check_library refusals` and both words of check_parts, which make again what
was refused. Needs a C compiler."""
import argparse
import collections
import itertools
import math
import mmap
import os
import pathlib
import shutil
import signal
import struct
import subprocess
import sys
import tempfile
from fractions import Fraction

# The words of usbtrace that read a scenario, and those that print all or nothing where memory is wanting.
WORDS = ("run", "run --steps", "run --packets", "alone 1", "left", "draw", "draw --html", "check", "live", "capture", "explain")
WHOLE = ("run --packets", "left", "draw", "draw --html", "explain", "test", "device", "describe")
# The bytes in front of a capture's records, and those in front of each record's own.
FILE_HEADER, RECORD_HEADER = 24, 16
# What a handle may do under `live` that a schedule can meet earlier or later.
CHANGING = (b"close", b"release", b"reset", b"clear", b"cancel")
CLASSES = ("unharmed", "early", "wrong")
# How an undisturbed run may end: well, refused, by bad words, with packets that aren't as expected, or with an input that ends early.
ENDS = (0, 1, 2, 3, 4)
NO_MEMORY = b"usbtrace: out of memory\n"
# How long a run may take: seconds of processor time, and how many times that by the clock, since machines are busy.
SECONDS, BY_THE_CLOCK = 10, 6
# After so many runs without an end the others of a scenario and word aren't tried.
MOST_ENDLESS = 2

# What can fail: allocations, threads that are made, reads of standard input, writes to standard output and standard error.
KINDS = ("memory", "threads", "reads", "writes", "errors")

# Stands before malloc, realloc, pthread_create, read and write, counts their calls in a file's pages, where they are however the
# program ends, and fails those that the environment names. A build with checks (`make run`) has malloc and realloc in itself, each
# entered by a jump, which is turned to here.
FAILING = r"""
#define _GNU_SOURCE
#include <dlfcn.h>
#include <errno.h>
#include <fcntl.h>
#include <link.h>
#include <pthread.h>
#include <stdatomic.h>
#include <stdint.h>
#include <stdlib.h>
#include <string.h>
#include <sys/mman.h>
#include <sys/resource.h>
#include <unistd.h>

enum kind { MEMORY, THREADS, READS, WRITES, ERRORS, KINDS };
enum { PAGE = 4096, JUMP = 0xe9, JUMP_SIZE = 5, BELOW = 1 << 28, AHEAD = 1 << 16 };
static const long FOREVER = 1L << 62;

static atomic_long *made;
static long failing = -1, first, last, each, code, room;
static uintptr_t own_begin, own_end;
static void *(*real_malloc)(size_t);
static void *(*real_realloc)(void *, size_t);
static int (*real_create)(pthread_t *, const pthread_attr_t *, void *(*)(void *), void *);
static ssize_t (*real_read)(int, void *, size_t);
static ssize_t (*real_write)(int, const void *, size_t);

static int fails(enum kind kind) {
    if (!made) return 0;
    long now = ++made[kind];
    return kind == failing && first <= now && now <= last && (now - first) % each == 0;
}

/* The function behind ours; looking for it takes no memory. */
static void find(void *real, const char *name) {
    if (!*(void **)real) *(void **)real = dlsym(RTLD_NEXT, name);
}

/* Whether a call is one of the program's own, and none of a library's. */
static int is_own(void *from) {
    return own_begin <= (uintptr_t)from && (uintptr_t)from < own_end;
}

static void *give(size_t size) {
    find(&real_malloc, "malloc");
    return is_own(__builtin_return_address(0)) && fails(MEMORY) ? NULL : real_malloc(size);
}

static void *give_more(void *old, size_t size) {
    find(&real_realloc, "realloc");
    return is_own(__builtin_return_address(0)) && fails(MEMORY) ? NULL : real_realloc(old, size);
}

void *malloc(size_t) __attribute__((alias("give")));
void *realloc(void *, size_t) __attribute__((alias("give_more")));

int pthread_create(pthread_t *thread, const pthread_attr_t *how, void *(*body)(void *), void *with) {
    find(&real_create, "pthread_create");
    return fails(THREADS) ? EAGAIN : real_create(thread, how, body, with);
}

/* One byte, of many that are read at once. */
static ssize_t give_one(int from, unsigned char *to) {
    static unsigned char ahead[AHEAD];
    static ssize_t at, end;
    if (at == end) at = 0, end = real_read(from, ahead, sizeof ahead);
    if (end <= 0) { at = end; return end; }
    *to = ahead[at++];
    return 1;
}

/* Fails by a code; where it is 0, the call is made for one byte. */
ssize_t read(int from, void *to, size_t size) {
    find(&real_read, "read");
    if (from != STDIN_FILENO || !fails(READS)) return real_read(from, to, size);
    if (code) { errno = code; return -1; }
    if (last == FOREVER && size) return give_one(from, to);
    return real_read(from, to, size ? 1 : 0);
}

/* Fails by a code, once so many bytes are written; where it is 0, the call is made for one byte. */
ssize_t write(int to, const void *from, size_t size) {
    find(&real_write, "write");
    if ((to != STDOUT_FILENO && to != STDERR_FILENO) || !fails(to == STDOUT_FILENO ? WRITES : ERRORS))
        return real_write(to, from, size);
    if (code && !room) { errno = code; return -1; }
    size_t most = code ? (size_t)room : 1;
    ssize_t done = real_write(to, from, size < most ? size : most);
    if (code && done > 0) room -= done;
    return done;
}

/* Where the program has such a function of its own, turns the jump at which it is entered to ours, by way of a long one nearby. */
static void turn(const char *name, void *ours, void *real) {
    unsigned char *at = dlsym(RTLD_DEFAULT, name);
    Dl_info found, own;
    if (!dladdr(at, &found) || !dladdr(ours, &own) || found.dli_fbase == own.dli_fbase) return;
    static uintptr_t below = BELOW;
    uintptr_t page = (uintptr_t)at & -(uintptr_t)PAGE, hint = page - (below += PAGE);
    unsigned char *near = mmap((void *)hint, PAGE, PROT_READ | PROT_WRITE | PROT_EXEC, MAP_PRIVATE | MAP_ANONYMOUS, -1, 0);
    int32_t reach = near - (at + JUMP_SIZE), was;
    if (near == MAP_FAILED || at[0] != JUMP || at + JUMP_SIZE + reach != near) abort();
    memcpy(&was, at + 1, sizeof was);
    *(void **)real = at + JUMP_SIZE + was;
    memcpy(near, "\xff\x25\0\0\0\0", 6);
    memcpy(near + 6, &ours, sizeof ours);
    if (mprotect((void *)page, 2 * PAGE, PROT_READ | PROT_WRITE | PROT_EXEC)) abort();
    memcpy(at + 1, &reach, sizeof reach);
    mprotect((void *)page, 2 * PAGE, PROT_READ | PROT_EXEC);
}

/* Where the program's code stands: it comes first of all that is loaded. */
static int measure(struct dl_phdr_info *of, size_t size, void *unused) {
    (void)size, (void)unused;
    for (int at = 0; at < of->dlpi_phnum; at++)
        if (of->dlpi_phdr[at].p_type == PT_LOAD && of->dlpi_phdr[at].p_flags & PF_X) {
            own_begin = of->dlpi_addr + of->dlpi_phdr[at].p_vaddr;
            own_end = own_begin + of->dlpi_phdr[at].p_memsz;
        }
    return 1;
}

static long number(const char *name) {
    const char *text = getenv(name);
    return text ? atol(text) : 0;
}

__attribute__((constructor)) static void begin(void) {
    dl_iterate_phdr(measure, NULL);
    turn("malloc", give, &real_malloc);
    turn("realloc", give_more, &real_realloc);
    int file = open(getenv("FAIL_COUNTS"), O_RDWR);
    void *counts = mmap(NULL, PAGE, PROT_READ | PROT_WRITE, MAP_SHARED, file, 0);
    if (counts == MAP_FAILED) abort();
    close(file);
    failing = number("FAIL_KIND"), first = number("FAIL_FIRST"), last = number("FAIL_LAST"), each = number("FAIL_EACH");
    code = number("FAIL_CODE"), room = number("FAIL_ROOM");
    rlim_t most = number("FAIL_SECONDS");
    if (most) setrlimit(RLIMIT_CPU, &(struct rlimit){most, most + 1});
    made = counts;
}
"""
COUNTS = struct.Struct(f"{len(KINDS)}l")
FOREVER = 2**62

# What fails: a kind, from a call to a call, each of them or each second one .., by a code of errno; 0 is a read or write of one byte. Of
# writes so many bytes are made before.
Failing = collections.namedtuple("Failing", "kind first last code each room", defaults=(0, 1, 0))
NOTHING = Failing("memory", 0, 0)
# How a program ended: its status is None where it didn't end. And how many calls of each kind it made.
Ended = collections.namedtuple("Ended", "status out err made")


def ended(words, seconds, **streams):
    """How a program ends that has these streams."""
    streams = {"stdout": subprocess.PIPE, "stderr": subprocess.PIPE, **streams}
    try:
        it = subprocess.run(words, timeout=seconds * BY_THE_CLOCK, **streams)
        status = None if it.returncode == -signal.SIGXCPU else it.returncode
        return Ended(status, it.stdout or b"", it.stderr or b"", {})
    except subprocess.TimeoutExpired as late:
        return Ended(None, late.stdout or b"", late.stderr or b"", {})


class Room:
    """A folder with the library that fails calls, for as long as programs run with it."""

    def __enter__(self):
        self.folder = tempfile.mkdtemp(prefix="failing-")
        self.library = f"{self.folder}/failing.so"
        words = ["cc", "-O1", "-shared", "-fPIC", "-x", "c", "-o", self.library, "-", "-ldl"]
        subprocess.run(words, input=FAILING.encode(), check=True)
        return self

    def __exit__(self, *_):
        shutil.rmtree(self.folder)

    def names(self, counts, failing, seconds):
        """The environment of a run."""
        told = {**failing._asdict(), "kind": KINDS.index(failing.kind), "seconds": math.ceil(seconds)}
        told = {f"FAIL_{name.upper()}": str(value) for name, value in told.items()}
        return {**os.environ, "LD_PRELOAD": self.library, "FAIL_COUNTS": counts, **told}

    def ran(self, words, given, failing=NOTHING, seconds=SECONDS):
        """How a program ends over an input, where this fails. The input is a file: a pipe may be read in any number of reads."""
        with tempfile.TemporaryFile(dir=self.folder) as source:
            source.write(given)
            source.seek(0)
            return self.ran_over(words, source, failing, seconds)

    def ran_over(self, words, source, failing=NOTHING, seconds=SECONDS):
        """The same over a stream."""
        with tempfile.NamedTemporaryFile(dir=self.folder) as counts:
            counts.write(bytes(mmap.PAGESIZE))
            counts.flush()
            it = ended(words, seconds, stdin=source, env=self.names(counts.name, failing, seconds))
            counts.seek(0)
            return it._replace(made=dict(zip(KINDS, COUNTS.unpack(counts.read(COUNTS.size)))))


def failings(made, most=None):
    """Each call that was made, refused alone, and with all behind it; of many calls so many, or such a part of them, evenly spread."""
    for kind in ("memory", "threads"):
        for call in spread(made[kind], most):
            yield Failing(kind, call, call)
            yield Failing(kind, call, FOREVER)


def spread(count, most):
    """The numbers from 1 to this, or so many of them, evenly spread; where that is a fraction, such a part of them."""
    if isinstance(most, Fraction):
        most = math.ceil(count * most)
    if most is None or count <= most:
        return range(1, count + 1)
    return sorted({1 + place * (count - 1) // max(most - 1, 1) for place in range(most)})


def has_one_answer(word, given):
    """Whether no schedule changes what is printed. Under `live` none does where handles open, claim and submit and do nothing
    else, no interface is claimed twice, and none of several submissions is made again."""
    if word != "live":
        return True
    steps = [line.split() for line in given.splitlines()]
    claims = [words[2:] for words in steps if words[:1] == [b"claim"]]
    submits = [words for words in steps if words[:1] == [b"submit"]]
    changes = any(words[:1] and words[0] in CHANGING for words in steps)
    return not changes and all(claims.count(it) == 1 for it in claims) and len(submits) <= (1 if b"then=again" in given else 16)


def is_sound(whole):
    """Whether an undisturbed run ended by itself, its allocations were seen, it told of no want of memory, since none was refused, and one
    that failed told why."""
    says = whole.status == 0 or bool(whole.out or whole.err)
    return whole.status in ENDS and whole.made["memory"] > 0 and not whole.err.endswith(NO_MEMORY) and says


def is_whole(printed):
    """Whether all lines are whole."""
    return not printed or printed.endswith(b"\n")


def has_whole_records(printed):
    """Whether the header of a capture and all its records are whole, or nothing is there."""
    at = FILE_HEADER
    while at + RECORD_HEADER <= len(printed):
        at += RECORD_HEADER + int.from_bytes(printed[at + 8 : at + 12], "little")
    return not printed or at == len(printed)


def is_unharmed(it, whole, is_settled):
    """Whether a run ended as the undisturbed one did; where schedules change what is printed, it may have printed other lines."""
    ends = (it.status, it.err) == (whole.status, whole.err)
    return ends and (it.out == whole.out if is_settled else is_whole(it.out))


def is_early(word, it, whole, is_settled):
    """Whether a run printed whole lines or records at the front of the undisturbed one's, or nothing, and told that memory was wanting."""
    if (it.status, it.err) != (1, NO_MEMORY) or (word in WHOLE and it.out):
        return False
    ends_well = has_whole_records if word == "capture" else is_whole
    return ends_well(it.out) and (not is_settled or whole.out.startswith(it.out))


def class_of(word, it, whole, is_settled=True):
    """The class of a run's end."""
    if is_unharmed(it, whole, is_settled):
        return "unharmed"
    return "early" if is_early(word, it, whole, is_settled) else "wrong"


def said(it):
    """How a run ended, in a line."""
    status = "no end" if it.status is None else f"status {it.status}"
    return f"{status}, {it.err[-200:]!r}, .. {it.out[-60:]!r}"


def told(failing):
    """What failed, in words."""
    if failing == NOTHING:
        return "undisturbed"
    behind = " and all behind it" if failing.last > failing.first else ""
    return f"call {failing.first} for {failing.kind}{behind}"


def tries(room, binary, word, given, most=None, seconds=SECONDS):
    """The runs of a word over a scenario, each with what was refused to it, its class, and how it ended."""
    words, is_settled = [binary, *word.split()], has_one_answer(word, given)
    whole, endless = room.ran(words, given, seconds=seconds), 0
    if not is_sound(whole):
        yield NOTHING, "wrong", whole
    for failing in failings(whole.made, most):
        if endless == MOST_ENDLESS:
            return
        it = room.ran(words, given, failing, seconds)
        endless += it.status is None
        yield failing, class_of(word, it, whole, is_settled), it


def tell(name, runs):
    """Prints what came of some runs. Whether none was wrong."""
    count = collections.Counter()
    for failing, its_class, it in runs:
        count[its_class] += 1
        if its_class == "wrong":
            print(f"{name}: {told(failing)}: {said(it)}", flush=True)
    parts = ", ".join(f"{count[it]} {it}" for it in CLASSES)
    print(f"{name}: {sum(count.values())} runs: {parts}", flush=True)
    return not count["wrong"]


def tries_same(room, words, seconds, most=None):
    """The runs of a program that makes each call again where it is refused."""
    whole = room.ran(words, b"", seconds=seconds)
    if not is_sound(whole):
        yield NOTHING, "wrong", whole
    for call in spread(whole.made["memory"], most):
        failing = Failing("memory", call, call)
        it = room.ran(words, b"", failing, seconds)
        yield failing, "unharmed" if is_unharmed(it, whole, True) and not it.status else "wrong", it


def main(words):
    asked = argparse.ArgumentParser(usage=__doc__)
    asked.add_argument("--same", action="store_true")
    asked.add_argument("--seconds", type=float, default=SECONDS)
    asked.add_argument("binary")
    asked.add_argument("words", nargs="+")
    asked = asked.parse_args(words)
    with Room() as room:
        if asked.same:
            words = [asked.binary, *asked.words]
            return 0 if tell(" ".join(asked.words), tries_same(room, words, asked.seconds)) else 1
        right = []
        for scenario, word in itertools.product(asked.words, WORDS):
            runs = tries(room, asked.binary, word, pathlib.Path(scenario).read_bytes(), None, asked.seconds)
            right.append(tell(f"{scenario}, {word}", runs))
    return 0 if all(right) else 1


if __name__ == "__main__":
    sys.exit(main(sys.argv[1:]))
