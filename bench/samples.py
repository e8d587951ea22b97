"""Compares the built program's samples with scripts that are drawn here: for each number, `sample N` must write the
summary of what `serial` reports of the script that this page draws from N. Prints how many numbers were
tried, and ends with 1 at the first that differs.

    python3 bench/samples.py [FIRST [LAST]]      0 to 255 where none is given; LAST is at most 65535"""
import os
import subprocess
import sys

PROGRAM = os.path.join(os.path.dirname(os.path.abspath(__file__)), "..", "crates", "strarr", "out", "strarr")
WORDS = ["a", "naïve", "banana", " padded ", "データベース", "a much longer text than sixteen bytes", "", "x"]
DECLARATIONS = [f"descr d{k} {'nan' if k % 2 else 'absent'} coerce" for k in range(4)]
DECLARATIONS += [line for k in range(4) for line in (f"array a{k} d{k} str 64", f"array n{k} d{k} int 64")]


def script(number):
    """The lines of the sample of this number."""
    state = number

    def draw(bound):
        nonlocal state
        state = (75 * state + 74) % 65537
        return state % bound

    lines = list(DECLARATIONS)
    for _ in range(8):
        lines.append("task")
        for _ in range(64):
            group, source, target, count = draw(8), draw(4), draw(4), 1 + draw(32)
            start, place = draw(32), draw(32)
            word = WORDS[draw(8)] if group < 2 else ""
            read, written = f"a{source}[{start},{count},1]", f"a{target}[{place},{count},1]"
            numbers = f"n{target}[{place},{count},1]"
            lines.append([f'set {written} "{word}"', f'add {read} "{word}" into {written}',
                          f"copy {read} into {written}", f'replace {read} "a" "éé" into {written}',
                          f"strip {read} into {written}", f'find {read} "a" into {numbers}',
                          f"multiply {read} 2 into {written}", f"set {written} na"][group])
    return "".join(line + "\n" for line in lines + ["end"]).encode()


def run(words, source=b""):
    """The status and the output of the program."""
    done = subprocess.run([PROGRAM, *words], input=source, stdout=subprocess.PIPE, check=False)
    return done.returncode, done.stdout


def summary(number, text, report):
    """What a report comes to."""
    lines = report.decode().split("\n")
    replies = [line.split(" ", 2)[1:] for line in lines if line[:1].isdigit()]
    done = sum(reply[0] == "done" for reply in replies)
    refused = sum(reply[0] == "refused" for reply in replies)
    stats = [line for line in lines if line.startswith("stats ")]
    head = [f"sample {number}", f"script {len(text)}", f"done {done} refused {refused}", f"report {len(report)}"]
    return "".join(line + "\n" for line in head + stats).encode()


def main():
    first = int(sys.argv[1]) if len(sys.argv) > 1 else 0
    last = int(sys.argv[2]) if len(sys.argv) > 2 else (first if len(sys.argv) > 1 else 255)
    for number in range(first, last + 1):
        text = script(number)
        status, report = run(["serial"], text)
        if status != 0:
            sys.exit(f"sample {number}: serial ended with {status}")
        if run(["sample", str(number)]) != (0, summary(number, text, report)):
            sys.exit(f"sample {number} differs")
    print(f"{last - first + 1} samples are as they were drawn here")


if __name__ == "__main__":
    main()
