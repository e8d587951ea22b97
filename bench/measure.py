"""Runs the program on loads of growing size and prints time, memory, and time per byte of script and
report together; for the loads that are told in calls, per byte of text that the calls copy, make or show; for searches
per byte of the texts in which is sought, at three sizes of a text; then
time on one, two and four workers, and how many different histories a hundred runs gave."""
import os
import subprocess
import sys
import tempfile
import time

MIB = 1 << 20


def small(size):
    """One array of 8 entries, and calls that set and show it, filled up with long texts."""
    head = b"descr d absent\narray a d str 8\ntask\n"
    room = size - len(head) - len(b"end\n")
    texts = b'set a ("' + b'","'.join([b"x" * 4090] * 8) + b'")\n'
    lines = [texts] * (room // len(texts))
    used = sum(map(len, lines))
    rest = room - used
    return head + b"".join(lines) + b"#" + b"c" * (rest - 2) + b"\nend\n"


def comments(size):
    """Skipped lines alone."""
    line = b"# a comment of a length that is usual in scripts\n"
    return line * ((size - 4) // len(line)) + b"end\n"


def wide(size):
    """8 descriptors, 64 arrays, 64 tasks and 1,024 calls: lists of 8,192 and of 1,024 items while the
    size allows, then calls of one item."""
    lengths = [8192] + [1024] * 7 + [0] * 8 + [1024] * 48
    for k in range(64):
        if k % 8 == 0 and k > 0:
            lengths[k] = 0
    lengths = [length if k < 8 else (0 if k % 8 == 0 else 64) for k, length in enumerate(lengths)]
    head = b"".join(b"descr d%d nan\n" % k for k in range(8))
    head += b"".join(b"array a%d d%d str %d\n" % (k, k % 8, length) for k, length in enumerate(lengths))
    tasks = [[] for _ in range(64)]
    left = size - len(head) - 64 * 5 - 4 - 1024 * 16
    for call in range(1024):
        array = call % 8
        line = b"set a%d (%s)\n" % (array, b",".join([b'"yyyy"'] * lengths[array]))
        if len(line) > left:
            array = 9 + call % 7
            line = b'set a%d "z"\n' % array
        left -= max(0, len(line) - 16)
        tasks[call % 64].append(line)
    script = head + b"".join(b"task\n" + b"".join(lines) for lines in tasks) + b"end\n"
    assert len(script) <= size, len(script)
    return script


def escapes(size):
    """Texts of control characters, of which each is written as its number."""
    head = b"descr d absent\narray a d str 1\ntask\n"
    line = b'set a "' + b"\\u{1}" * 10000 + b'"\n'
    count = min(1000, (size - len(head) - 4) // len(line))
    return head + line * count + b"end\n"


def rewrites(size):
    """One array of 1,024 entries, and calls that rewrite its texts, of 3 to 300 bytes in turn: inside
    their slots, in the arena and outside."""
    head = b"descr d absent\narray a d str 1024\ntask\n"
    lines, left, step = [], size - len(head) - 4, 7
    while len(lines) < 1024:
        sizes = [3 + (entry * 37 + len(lines) * step) % 298 for entry in range(1024)]
        line = b'set a (' + b",".join(b'"' + b"x" * n + b'"' for n in sizes) + b")\n"
        if len(line) > left:
            break
        left -= len(line)
        lines.append(line)
    return head + b"".join(lines) + b"end\n"


def stretched(calls):
    """One array of 8,192 entries, and calls that rewrite all of them to one text of 3 to 110 bytes."""
    head = b"descr d absent\narray a d str 8192\ntask\n"
    sizes = [3 + (call * 37) % 108 for call in range(calls)]
    lines = [b'set a "' + b"x" * n + b'"\n' for n in sizes]
    return head + b"".join(lines) + b"end\n", 8192 * sum(sizes)


def viewed(calls):
    """One array of 2,048 texts of 20 bytes, and calls on strided and overlapping views of it in turn: all
    moved on by a place, all turned round, every second one put beside itself, and every fourth shown."""
    head = b'descr d absent\narray a d str 2048\ntask\nset a (' + b",".join(b'"%020d"' % k for k in range(2048)) + b")\n"
    turn = [(b"copy a[0,2047,1] into a[1,2047,1]\n", 2047), (b"copy a[2047,2048,-1] into a\n", 2048),
            (b"copy a[0,1024,2] into a[1,1024,2]\n", 1024), (b"show a[3,512,4]\n", 512)]
    taken = [turn[call % 4] for call in range(calls - 1)]
    return head + b"".join(line for line, _ in taken) + b"end\n", 20 * (2048 + sum(items for _, items in taken))


def making(line, made):
    """A load of one call that makes 8,192 texts of one array of texts of 6 bytes, with a space at each
    end, and puts them into an array of another descriptor. `made` is the size of each text that it makes."""

    def load(calls):
        head = b"descr d nan\ndescr e nan\narray a d str 8192\narray b e str 8192\ntask\n"
        head += b"set a (" + b",".join(b'" %04d "' % (k % 10000) for k in range(8192)) + b")\n"
        return head + line * (calls - 1) + b"end\n", 8192 * made * (calls - 1)

    return load


MAKING = (("add", making(b'add a "-xyz" into b\n', 10)), ("multiply", making(b"multiply a 3 into b\n", 18)),
          ("center", making(b'center a 11 "." into b\n', 11)), ("ljust", making(b"ljust a 11 into b\n", 11)),
          ("rjust", making(b"rjust a 11 into b\n", 11)), ("zfill", making(b"zfill a 11 into b\n", 11)),
          ("strip", making(b"strip a into b\n", 4)), ("lstrip", making(b"lstrip a into b\n", 5)),
          ("rstrip", making(b'rstrip a " " into b\n', 5)))


def seeking(line, piece):
    """A load of one call that seeks in 8 texts of this size, each a piece again and again."""

    def load(size):
        text = (piece * (size // len(piece) + 1))[:size]
        head = b"descr d nan\ndescr e nan\narray a d str 8\narray b e str 8\ntask\n"
        head += b"set a (" + b",".join([b'"' + text + b'"'] * 8) + b")\n"
        return head + line * 1023 + b"end\n", 8 * size * 1023

    return load


# What is sought is not there, is nearly there everywhere, or is there many times.
SEEKING = (("find", seeking(b'find a "y"\n', b"some text ")), ("nearly", seeking(b'find a "aaaaaaab"\n', b"a")),
           ("rfind", seeking(b'rfind a "xt some y"\n', b"some text ")), ("count", seeking(b'count a "xt"\n', b"some text ")),
           ("points", seeking(b'find a "" 50000 60000\n', "é".encode())), ("replace", seeking(b'replace a "xt" "yz" into b\n', b"some text ")),
           ("misses", seeking(b'replace a "aaaaaaab" "" into b\n', b"a")))


def apart():
    """8 tasks of 128 calls, each task on a descriptor of its own with 1,024 entries, which every call rewrites
    with texts of 20 to 219 bytes."""
    head = b"".join(b"descr d%d nan\n" % d for d in range(8)) + b"".join(b"array a%d d%d str 1024\n" % (d, d) for d in range(8))
    tasks = []
    for task in range(8):
        lines = []
        for call in range(64):
            lines.append(b'set a%d "%s"\n' % (task, b"x" * (20 + (call * 37) % 200)))
            lines.append(b'add a%d "-xyz" into a%d\n' % (task, task))
        tasks.append(b"task\n" + b"".join(lines))
    return head + b"".join(tasks) + b"end\n"


def across():
    """8 tasks of 64 calls on two descriptors, each call on both of them."""
    head = b"descr d nan\ndescr e nan\narray a d str 4\narray b e str 4\n"
    calls = b'add a "x" into b\n' + b'copy b into a\n' + b'set a ("p","q","r","s")\n' + b'set b "t"\n'
    return head + (b"task\n" + calls * 16) * 8 + b"end\n"


def in_threads(program, script, workers):
    """The best wall time of five runs on so many workers, and the status."""
    best = None
    for _ in range(5):
        start = time.perf_counter()
        done = subprocess.run([program, "run", str(workers)], input=script, stdout=subprocess.DEVNULL)
        wall = time.perf_counter() - start
        best = wall if best is None else min(best, wall)
    return best, done.returncode


def histories(program, script, workers, runs):
    """How many different histories so many runs gave."""
    lines = set()
    for _ in range(runs):
        done = subprocess.run([program, "run", str(workers)], input=script, stdout=subprocess.PIPE)
        lines.add(done.stdout.split(b"\n")[1])
    return len(lines)


def peak_memory(program, script):
    """The program's peak memory in KiB, none where /usr/bin/time is absent. A child that Python itself
    starts begins with Python's own memory, so it is measured by a small process between the two."""
    if not os.path.exists("/usr/bin/time"):
        return None
    with tempfile.TemporaryFile() as source, tempfile.NamedTemporaryFile() as told:
        source.write(script)
        source.seek(0)
        command = ["/usr/bin/time", "-q", "-f", "%M", "-o", told.name, program, "serial"]
        subprocess.call(command, stdin=source, stdout=subprocess.DEVNULL)
        return int(told.read().split()[-1])


def run(program, script):
    """The best wall time of three runs, the peak memory in KiB, the status and the report's bytes."""
    best = None
    with tempfile.TemporaryFile() as source:
        source.write(script)
        for _ in range(3):
            source.seek(0)
            with tempfile.TemporaryFile() as sink:
                start = time.perf_counter()
                status = subprocess.call([program, "serial"], stdin=source, stdout=sink)
                wall = time.perf_counter() - start
                out = sink.seek(0, os.SEEK_END)
            best = wall if best is None else min(best, wall)
    return best, peak_memory(program, script), status, out


def shown_memory(peak):
    return f"{'-':>10}" if peak is None else f"{peak / 1024:>10.1f}"


def main():
    program = sys.argv[1]
    print(f"{'load':<10}{'MiB':>6}{'status':>8}{'wall s':>9}{'ns a byte':>11}{'peak MiB':>10}{'report MiB':>12}")
    for name, make in (("small", small), ("comments", comments), ("wide", wide), ("escapes", escapes), ("rewrites", rewrites)):
        for mib in (1, 2, 4):
            script = make(mib * MIB)
            wall, peak, status, out = run(program, script)
            each = wall / (len(script) + out) * 1e9
            print(f"{name:<10}{len(script) / MIB:>6.2f}{status:>8}{wall:>9.3f}{each:>11.1f}{shown_memory(peak)}{out / MIB:>12.2f}")
    print(f"{'load':<10}{'calls':>6}{'status':>8}{'wall s':>9}{'ns a byte':>11}{'peak MiB':>10}{'moved MiB':>12}")
    for name, make in (("stretched", stretched), ("viewed", viewed)) + MAKING:
        for calls in (256, 512, 1024):
            script, moved = make(calls)
            wall, peak, status, _ = run(program, script)
            print(f"{name:<10}{calls:>6}{status:>8}{wall:>9.3f}{wall / moved * 1e9:>11.1f}{shown_memory(peak)}{moved / MIB:>12.2f}")
    print(f"{'load':<10}{'bytes':>6}{'status':>8}{'wall s':>9}{'ns a byte':>11}{'peak MiB':>10}{'sought MiB':>12}")
    for name, make in SEEKING:
        for size in (15000, 30000, 60000):
            script, sought = make(size)
            wall, peak, status, _ = run(program, script)
            print(f"{name:<10}{size:>6}{status:>8}{wall:>9.3f}{wall / sought * 1e9:>11.2f}{shown_memory(peak)}{sought / MIB:>12.2f}")
    print(f"{'load':<10}{'workers':>8}{'status':>8}{'wall s':>9}{'times as fast':>15}")
    for name, script in (("apart", apart()), ("across", across())):
        alone = None
        for workers in (1, 2, 4):
            wall, status = in_threads(program, script, workers)
            alone = alone or wall
            print(f"{name:<10}{workers:>8}{status:>8}{wall:>9.3f}{alone / wall:>15.2f}")
    print(f"a hundred runs of `across` on 4 workers gave {histories(program, across(), 4, 100)} different histories")


if __name__ == "__main__":
    main()
