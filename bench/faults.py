#!/usr/bin/env python3
"""What the built program answers where the outside fails it.

    python3 bench/faults.py PROGRAM [--only PART,..] [--seconds 120]

PROGRAM is a built cellroute. Each case runs it in a folder of its own and compares the status, what is printed, and each file with what has to come; what does not is told, and the
last line counts: `N tried, M differ`. A case that takes longer than so many seconds differs. What could not be tried here, as a disk for which nobody may mount a folder, is told too, and not counted.

files: DESIGN, RULES, CIF and OUT that are lacking, folders, pipes, devices, not to be read or written, or one file by two names.
outputs: the standard output and the standard error closed, full, or a pipe that nobody reads.
kills: SIGKILL at fifty moments. OUT holds what it held, or a front of the layout's text.
limits: the memory of the process limited in steps. The status is 10 with all files as before, or the command is done.
allocations: each allocation refused once, by its number, and all from a number on. So too; where only notes for people, or a file that stays open, lacked memory, all is as without.

It needs Linux, and gcc for the last part. As root it also tries files that another user may not read or write, and a disk of a few bytes.
"""
import argparse
import contextlib
import os
import pathlib
import resource
import shutil
import signal
import subprocess
import sys
import tempfile
import threading
import time

HERE = pathlib.Path(__file__).resolve().parent
SAMPLE = (HERE.parent / "examples" / "sample.toml").read_bytes()
NOBODY = 65534

# Two buffers of one net, their layout, and what `route` prints of it.
DESIGN = b"""MODULE BUF;
TYPE STANDARD;
DIMENSIONS 0 0 8 0 8 40 0 40;
IOLIST;
y O 4 40 3 POLY;
ENDIOLIST;
ENDMODULE;
MODULE top;
TYPE PARENT;
DIMENSIONS 0 0 8 0 8 40 0 40;
IOLIST;
ENDIOLIST;
NETWORK;
u1 BUF n1;
u2 BUF n1;
ENDNETWORK;
ENDMODULE;
"""
LAYOUT = b"""(cellroute 1);
DS 1 1 1;
9 BUF;
L XP;
B 800 4000 400 2000;
L NP;
B 300 400 400 3800;
DF;
91 u1;
C 1 T 0 800;
91 u2;
C 1 T 800 800;
L NP;
B 300 1000 400 5300;
B 300 1000 1200 5300;
L NM;
B 1200 300 800 5600;
B 400 400 400 5600;
L NP;
B 400 400 400 5600;
L NC;
B 200 200 400 5600;
L NM;
B 400 400 1200 5600;
L NP;
B 400 400 1200 5600;
L NC;
B 200 200 1200 5600;
E
"""
SUMMARY = b"""cells 2
nets 1
rows 1
feeds 0
channel 0 tracks 0 extra 0 greedy
channel 1 tracks 1 extra 0 greedy
size 1600 6400
cost 1
"""
# Two nets that cross in the channel between two rows.
CROSSED = (
    DESIGN[: DESIGN.index(b"MODULE top")].replace(b"BUF", b"INV").replace(b"y O 4 40", b"a I 4 0")
    + DESIGN.replace(b"u1 BUF n1;\nu2 BUF n1;\n", b"u1 BUF b;\nu2 BUF a;\nu3 INV a;\nu4 INV b;\n")
)
FILES = {"d": DESIGN, "crossed": CROSSED, "r": SAMPLE, "c": LAYOUT, "o": b"old\n", "other": b"stays\n"}
ROUTE = ["route", "d", "r", "o"]
CHECK = ["check", "d", "r", "c"]
MEMORY_NOTE = b"cellroute: memory ran out; a smaller design, or more memory, is wanted [memory]\n"

# A library that stands before the C library: it counts the allocations, and refuses one or all from one on.
SHIM = r"""
#include <errno.h>
#include <fcntl.h>
#include <stddef.h>
#include <stdlib.h>
#include <sys/mman.h>
#include <unistd.h>
extern void *__libc_malloc(size_t);
extern void *__libc_calloc(size_t, size_t);
extern void *__libc_realloc(void *, size_t);
extern void *__libc_memalign(size_t, size_t);
static long none, *counted = &none, once = -1, on = -1;
__attribute__((constructor)) static void begin(void) {
    char *file = getenv("FAULTS_COUNT"), *first = getenv("FAULTS_ONCE"), *from = getenv("FAULTS_FROM");
    if (file) {
        int at = open(file, O_RDWR);
        void *place = mmap(0, sizeof(long), PROT_READ | PROT_WRITE, MAP_SHARED, at, 0);
        close(at);
        if (place != MAP_FAILED) counted = place;
    }
    if (first) once = atol(first);
    if (from) on = atol(from);
    *counted = 0;
}
static int refused(void) {
    long n = (*counted)++;
    if (n != once && (on < 0 || n < on)) return 0;
    errno = ENOMEM;
    return 1;
}
void *malloc(size_t n) { return refused() ? 0 : __libc_malloc(n); }
void *calloc(size_t n, size_t m) { return refused() ? 0 : __libc_calloc(n, m); }
void *realloc(void *p, size_t n) { return refused() ? 0 : __libc_realloc(p, n); }
void *aligned_alloc(size_t a, size_t n) { return refused() ? 0 : __libc_memalign(a, n); }
void *memalign(size_t a, size_t n) { return refused() ? 0 : __libc_memalign(a, n); }
int posix_memalign(void **p, size_t a, size_t n) {
    if (refused()) return ENOMEM;
    *p = __libc_memalign(a, n);
    return *p ? 0 : ENOMEM;
}
"""


class Tries:
    """What was tried, and what did not come as it has to."""

    def __init__(self, program, seconds):
        self.program = os.path.abspath(program)
        self.seconds = seconds
        self.tried = 0
        self.differ = 0
        self.left_out = []

    def say(self, name, right, what):
        """Counts a case, and tells of it where it was not right."""
        self.tried += 1
        if not right:
            self.differ += 1
            print(f"differs: {name}: {what}", flush=True)

    def leave_out(self, what):
        """Tells what could not be tried."""
        self.left_out.append(what)
        print(f"left out: {what}", flush=True)

    def run(self, words, folder, **more):
        """The status, the printed lines and the notes of the program with these words in a folder."""
        more.setdefault("stdout", subprocess.PIPE)
        more.setdefault("stderr", subprocess.PIPE)
        more.setdefault("stdin", subprocess.DEVNULL)
        words = [word if isinstance(word, bytes) else os.fsencode(word) for word in words]
        try:
            done = subprocess.run([os.fsencode(self.program), *words], cwd=folder, timeout=self.seconds, **more)
        except subprocess.TimeoutExpired:
            return "none in time", b"", b""
        return done.returncode, done.stdout, done.stderr

    def case(self, name, words, status, printed, files=None, prepare=None, **more):
        """Runs words in a folder with the files, which are prepared further, and says whether they end with this status, print this (anything, where it is None), and leave these files,
        and all others as they were."""
        with folder_of(FILES) as folder:
            if prepare:
                prepare(folder)
            before = held(folder)
            got, out, _ = self.run(words, folder, **more)
            after = held(folder)
            want = {**before, **(files or {})}
            right = got == status and (printed is None or out == printed) and after == want
            changed = [file for file in sorted(set(after) | set(want)) if after.get(file) != want.get(file)]
            self.say(name, right, f"status {got}, wanted {status}; printed {out!r}; other files than wanted: {changed}")


@contextlib.contextmanager
def folder_of(files):
    """A new folder with these files, which anybody may read, and of which only their owner may write."""
    folder = tempfile.mkdtemp(prefix="faults-")
    os.chmod(folder, 0o755)
    try:
        for name, bytes_ in files.items():
            pathlib.Path(folder, name).write_bytes(bytes_)
        yield folder
    finally:
        shutil.rmtree(folder, ignore_errors=True)


def held(folder):
    """The plain files of a folder, and what they hold."""
    found = {}
    for entry in os.scandir(folder):
        if entry.is_file(follow_symlinks=False):
            found[entry.name] = pathlib.Path(entry.path).read_bytes()
    return found


def as_nobody():
    """Lets the program run as a user without rights."""
    os.setgroups([])
    os.setgid(NOBODY)
    os.setuid(NOBODY)


def fed(name, bytes_):
    """What prepares a pipe of this name into which bytes are written for whoever reads it."""

    def prepare(folder):
        path = os.path.join(folder, name)
        os.mkfifo(path)

        def feed():
            for _ in range(3):
                with contextlib.suppress(OSError):
                    with open(path, "wb", buffering=0) as pipe:
                        pipe.write(bytes_)
                time.sleep(0.05)

        threading.Thread(target=feed, daemon=True).start()

    return prepare


def linked(name, to):
    """What prepares a link."""
    return lambda folder: os.symlink(to, os.path.join(folder, name))


def try_reading(tries):
    """Files that are read."""
    for place, word in ((1, "DESIGN"), (2, "RULES"), (3, "CIF")):
        def words(name):
            return [name if at == place else word_ for at, word_ in enumerate(CHECK)]

        fault = (8, b"read fault\n")
        tries.case(f"{word} is not there", words("none"), *fault)
        tries.case(f"{word} has an empty name", words(""), *fault)
        tries.case(f"{word} is a folder", words("."), *fault)
        tries.case(f"{word} stands below a file", words("d/x"), *fault)
        tries.case(f"{word} has a name of 300 bytes", words("n" * 300), *fault)
        tries.case(f"{word} is a link to itself", words("loop"), *fault, prepare=linked("loop", "loop"))
        tries.case(f"{word} is a pipe", words("p"), *fault, prepare=fed("p", FILES["drc"[place - 1]]))
        if os.geteuid() == 0:
            name = "drc"[place - 1]
            tries.case(f"{word} may not be read", CHECK, *fault, prepare=lambda folder: os.chmod(os.path.join(folder, name), 0), preexec_fn=as_nobody)
    for name, lines in (
        ("/dev/null", [(5, b"design NoParent\n"), (4, b"rules Missing version\n"), (7, b"cif NoEnd 0\n")]),
        ("/dev/zero", [(6, b"limit Design 16777216\n"), (6, b"limit Rules 16777216\n"), (6, b"limit Cif 268435456\n")]),
    ):
        for place, (status, line) in enumerate(lines, 1):
            tries.case(f"{name} in the place {place}", [name if at == place else word for at, word in enumerate(CHECK)], status, line)
    tries.case("a word that is not in UTF-8", ["route", b"d\xff", "r", "o"], 2, b"usage\n")


def try_writing(tries):
    """The file that is written."""
    fault = (9, b"write fault\n")
    tries.case("OUT is a full device", ["route", "d", "r", "/dev/full"], *fault)
    tries.case("OUT stands in a folder that is not there", ["route", "d", "r", "none/o"], *fault)
    tries.case("OUT stands below a file", ["route", "d", "r", "other/o"], *fault)
    tries.case("OUT is a folder", ["route", "d", "r", "."], *fault)
    tries.case("OUT has an empty name", ["route", "d", "r", ""], *fault)
    tries.case("OUT has a name of 300 bytes", ["route", "d", "r", "n" * 300], *fault)
    tries.case("OUT is a link to itself", ["route", "d", "r", "loop"], *fault, prepare=linked("loop", "loop"))
    tries.case("OUT is a link to nothing", ["route", "d", "r", "new"], 0, SUMMARY, files={"made": LAYOUT}, prepare=linked("new", "made"))
    tries.case("OUT is a link to the design", ["route", "d", "r", "link"], 0, SUMMARY, files={"d": LAYOUT}, prepare=linked("link", "d"))
    tries.case("OUT is the design", ["route", "d", "r", "d"], 0, SUMMARY, files={"d": LAYOUT})
    tries.case("OUT is the rules", ["route", "d", "r", "./r"], 0, SUMMARY, files={"r": LAYOUT})
    tries.case("OUT is nowhere", ["route", "d", "r", "/dev/null"], 0, SUMMARY)
    tries.case("OUT is the standard output", ["route", "d", "r", "/dev/stdout"], 0, LAYOUT + SUMMARY)
    if os.geteuid() == 0:
        tries.case("OUT may not be written", ROUTE, *fault, preexec_fn=as_nobody)
        tries.case("OUT may not be made", ["route", "d", "r", "new"], *fault, preexec_fn=as_nobody)
    else:
        tries.leave_out("files of another user: this is not root")
    try_small_disk(tries)


def made_text(tries, words, folder):
    """What a command to make writes where nothing fails."""
    status, _, _ = tries.run(words, folder)
    text = pathlib.Path(folder, words[4]).read_bytes()
    if status != 0 or not text.endswith(b"\nE\n"):
        sys.exit(f"{' '.join(words)} ends with {status}")
    return text


def try_small_disk(tries):
    """A file that may not grow, and a disk on which it has no room."""
    words = ["make", "1", "40", "r", "big/o"]
    for size in (0, 1, 4096, 5000, 16384):
        with folder_of(FILES) as folder:
            os.mkdir(os.path.join(folder, "big"))
            text = made_text(tries, words, folder)
            out = pathlib.Path(folder, "big", "o")
            out.write_bytes(b"old\n")
            status, printed, _ = tries.run(words, folder, restore_signals=False, preexec_fn=lambda: resource.setrlimit(resource.RLIMIT_FSIZE, (size, size)))
            right = (status, printed, out.read_bytes()) == (9, b"write fault\n", text[:size])
            tries.say(f"OUT may have {size} bytes", right, f"status {status}, printed {printed!r}, OUT has {out.stat().st_size} bytes")
    with folder_of(FILES) as folder:
        disk = os.path.join(folder, "big")
        os.mkdir(disk)
        text = made_text(tries, words, folder)
        os.remove(os.path.join(disk, "o"))
        mounted = subprocess.run(["mount", "-t", "tmpfs", "-o", "size=16k", "none", disk], stderr=subprocess.DEVNULL)
        if mounted.returncode != 0:
            tries.leave_out("a disk of 16,384 bytes: none can be mounted here")
            return
        try:
            status, printed, _ = tries.run(words, folder)
            got = pathlib.Path(disk, "o").read_bytes()
            right = (status, printed) == (9, b"write fault\n") and len(got) < len(text) and text.startswith(got)
            tries.say("OUT is on a disk of 16,384 bytes", right, f"status {status}, printed {printed!r}, OUT has {len(got)} bytes")
        finally:
            subprocess.run(["umount", disk], check=False)


def closing(*files):
    """What closes standard files of the program."""
    return lambda: [os.close(file) for file in files]


@contextlib.contextmanager
def unread_pipe():
    """A pipe that nobody reads."""
    reading, writing = os.pipe()
    os.close(reading)
    try:
        yield writing
    finally:
        os.close(writing)


# Words, the status and the lines where nothing fails, what OUT holds then, and the status where the lines cannot be printed.
ENDINGS = [
    (ROUTE, 0, SUMMARY, LAYOUT, 9),
    (ROUTE + ["-q"], 0, SUMMARY, LAYOUT, 9),
    (CHECK, 0, b"findings 0\n", None, 9),
    (["check", "d", "r", "far"], 1, b"Missing u1\nMissing u2\nfindings 2\n", None, 9),
    (["version"], 0, None, None, 9),
    (["help"], 0, None, None, 9),
    (["rout"], 2, b"usage\n", None, 2),
    (["route", "c", "r", "o"], 3, b"yal Word 0\n", None, 3),
    (["route", "d", "d", "o"], 4, b"rules Toml\n", None, 4),
    (["check", "d", "r", "d"], 7, b"cif BadCommand 0\n", None, 7),
    (["route", "none", "r", "o"], 8, b"read fault\n", None, 8),
    (["route", "d", "r", "none/o"], 9, b"write fault\n", None, 9),
]


def empty_layout(folder):
    """Puts a layout without cells into a folder."""
    pathlib.Path(folder, "far").write_bytes(b"E\n")


def try_outputs(tries):
    """The standard output and the standard error."""
    for words, status, lines, layout, unprinted in ENDINGS:
        name = " ".join(words)
        files = {"o": layout} if layout else {}
        common = {"files": files, "prepare": empty_layout}
        tries.case(f"{name}: the standard input is closed", words, status, lines, preexec_fn=closing(0), **common)
        tries.case(f"{name}: the standard error is closed", words, status, lines, preexec_fn=closing(2), **common)
        tries.case(f"{name}: input and error are closed", words, status, lines, preexec_fn=closing(0, 2), **common)
        tries.case(f"{name}: the standard output is closed", words, unprinted, None, preexec_fn=closing(1), **common)
        tries.case(f"{name}: all three are closed", words, unprinted, None, preexec_fn=closing(0, 1, 2), **common)
        with open("/dev/full", "wb") as full:
            tries.case(f"{name}: the standard error is full", words, status, lines, stderr=full, **common)
            tries.case(f"{name}: the standard output is full", words, unprinted, None, stdout=full, **common)
        for restore in (True, False):
            with unread_pipe() as pipe:
                tries.case(f"{name}: nobody reads the standard error", words, status, lines, stderr=pipe, restore_signals=restore, **common)
                tries.case(f"{name}: nobody reads the standard output", words, unprinted, None, stdout=pipe, restore_signals=restore, **common)


def try_kills(tries):
    """Kills at fifty moments, from the start to a little before the end."""
    words = ["make", "3", "800", "r", "o"]
    with folder_of(FILES) as folder:
        started = time.monotonic()
        text = made_text(tries, words, folder)
        took = time.monotonic() - started
    begun = 0
    for moment in range(50):
        with folder_of(FILES) as folder:
            out = pathlib.Path(folder, "o")
            with subprocess.Popen([tries.program, *words], cwd=folder, stdout=subprocess.DEVNULL, stderr=subprocess.DEVNULL) as running:
                if moment < 20:
                    time.sleep(took * moment / 20)
                else:
                    # The later moments stand where the layout is written: so many pieces of it are there.
                    wait_for_size(running, out, (moment - 19) * len(text) // 32)
                running.kill()
                running.wait()
            got = held(folder)
            now = got.pop("o")
            rest = {name: bytes_ for name, bytes_ in FILES.items() if name != "o"}
            begun += now != b"old\n" and len(now) < len(text)
            right = got == rest and (now == b"old\n" or text.startswith(now))
            tries.say(f"killed at moment {moment}", right, f"OUT has {len(now)} bytes")
    print(f"of fifty kills {begun} came while OUT was written", flush=True)


def wait_for_size(running, path, size):
    """Waits until a file that held less has so many bytes, or the program has ended."""
    while running.poll() is None:
        if size <= path.stat().st_size:
            return


def try_limits(tries):
    """The memory of the process, limited in steps."""
    makes = ["make", "3", "600", "r", "o"]
    with folder_of(FILES) as folder:
        text = made_text(tries, makes, folder)
    commands = [(makes, text, None), (ROUTE, LAYOUT, SUMMARY), (CHECK, FILES["o"], b"findings 0\n")]
    megabyte = 1 << 20
    least = next((size for size in range(1, 256) if starts(tries, size * megabyte)), None)
    if least is None:
        tries.leave_out("limits of memory: the program starts under none")
        return
    for words, out, lines in commands:
        size = least
        done = False
        while not done and size < 4096:
            with folder_of(FILES) as folder:
                status, printed, _ = tries.run(words, folder, preexec_fn=lambda: resource.setrlimit(resource.RLIMIT_AS, (size * megabyte, size * megabyte)))
                got = held(folder)
                done = status == 0
                if done:
                    right = got == {**FILES, "o": out} and lines in (None, printed)
                else:
                    right = status == 10 and printed in (b"memory\n", b"") and got == FILES
                tries.say(f"{' '.join(words)} in {size} MB", right, f"status {status}, printed {printed!r}, OUT has {len(got['o'])} bytes")
            size += 1 if size < least + 24 else 8
        tries.say(f"{' '.join(words)} is done in the end", done, f"not in {size} MB")


def starts(tries, size):
    """Whether the program is loaded where its memory is limited to so many bytes."""
    with folder_of({}) as folder:
        try:
            status, _, _ = tries.run(["version"], folder, preexec_fn=lambda: resource.setrlimit(resource.RLIMIT_AS, (size, size)))
        except (OSError, subprocess.SubprocessError):
            return False
    return status in (0, 10)


def try_allocations(tries):
    """Allocations that are refused."""
    with tempfile.TemporaryDirectory(prefix="faults-shim-") as place:
        source = pathlib.Path(place, "shim.c")
        source.write_text(SHIM)
        shim = os.path.join(place, "shim.so")
        try:
            subprocess.run(["gcc", "-O1", "-shared", "-fPIC", "-o", shim, str(source)], check=True)
        except (OSError, subprocess.CalledProcessError):
            tries.leave_out("allocations: gcc makes no library here")
            return
        for words in (
            ROUTE,
            ROUTE + ["-q"],
            ["route", "crossed", "r", "o", "--rows", "2", "--edge", "--ports"],
            CHECK,
            ["check", "d", "r", "far"],
            ["make", "7", "12", "r", "o"],
            ["help"],
            ["route", "d", "d", "o"],
        ):
            for kind in ("ONCE", "FROM"):
                refuse_each(tries, words, kind, shim, place)


def refuse_each(tries, words, kind, shim, place):
    """Refuses each allocation of a command in turn, once or from it on, until none is left."""
    counter = os.path.join(place, "count")

    def run(number):
        pathlib.Path(counter).write_bytes(bytes(8))
        wanted = {} if number is None else {f"FAULTS_{kind}": str(number)}
        with folder_of(FILES) as folder:
            empty_layout(folder)
            status, printed, notes = tries.run(words, folder, env={**os.environ, "LD_PRELOAD": shim, "FAULTS_COUNT": counter, **wanted})
            return (status, printed, held(folder)), notes

    name = f"{' '.join(words)}: allocations refused {'once' if kind == 'ONCE' else 'from one on'}"
    unharmed, all_notes = run(None)
    before = {**FILES, "far": b"E\n"}
    count = int.from_bytes(pathlib.Path(counter).read_bytes(), "little")
    lines = all_notes.splitlines()
    said = {"nothing": 0, "memory": 0, "done": 0}
    for number in range(count):
        (status, printed, files), notes = run(number)
        if status == 10:
            said["memory" if printed else "nothing"] += 1
            # Nothing is printed only as long as the program has no words.
            right = files == before and (printed == b"memory\n" or printed == b"" and not said["memory"]) and notes in (b"", MEMORY_NOTE)
        else:
            said["done"] += 1
            right = (status, printed, files) == unharmed and all(line in lines for line in notes.splitlines())
        tries.say(f"{name}, number {number} of {count}", right, f"status {status}, printed {printed!r}, noted {notes!r}")
    last, _ = run(count)
    tries.say(f"{name}, none", last == unharmed, f"status {last[0]}")
    print(f"{name}: 10 and nothing printed {said['nothing']}, 10 {said['memory']}, as without {said['done']}", flush=True)


PARTS = {"files": (try_reading, try_writing), "outputs": (try_outputs,), "kills": (try_kills,), "limits": (try_limits,), "allocations": (try_allocations,)}


def main():
    parser = argparse.ArgumentParser(description=__doc__, formatter_class=argparse.RawDescriptionHelpFormatter)
    parser.add_argument("program")
    parser.add_argument("--only", default=",".join(PARTS))
    parser.add_argument("--seconds", type=int, default=120)
    asked = parser.parse_args()
    tries = Tries(asked.program, asked.seconds)
    for part in asked.only.split(","):
        for each in PARTS[part]:
            each(tries)
    print(f"{tries.tried} tried, {tries.differ} differ")
    sys.exit(1 if tries.differ else 0)


main()
