#!/usr/bin/env python3
"""Measures how long reading takes: texts of 128 KiB to 1 MiB of declarations, long chains and deep parentheses.

Usage: bench/front.py PROGRAM      (the program front_probe)

Prints seconds and memory for each size, and the ratio of time to size against the smallest.
"""
import os
import subprocess
import sys
import time

SIZES = [128, 256, 512, 1024]


def declarations(size):
    lines = ["entity e is port (a : in bit; q : out bit); end e;\narchitecture vbe of e is\n"]
    k, made = 0, len(lines[0])
    while made < size - 200:
        line = f"signal first{k}, second{k} : bit_vector (7 downto 0);\n"
        lines.append(line)
        made += len(line)
        k += 1
    return "".join(lines) + "begin\nend vbe;\n"


def chains(size):
    head = "entity e is port (a : in bit; q : out bit); end e;\narchitecture vbe of e is\nbegin\n"
    statement = "q <= a" + " xor a" * 16000 + ";\n"
    return head + statement * max(1, (size - len(head)) // len(statement)) + "end vbe;\n"


def parentheses(size):
    head = "entity e is port (a : in bit; q : out bit); end e;\narchitecture vbe of e is\nbegin\n"
    statement = "q <= " + "(" * 256 + "a" + ")" * 256 + ";\n"
    return head + statement * ((size - len(head)) // len(statement)) + "end vbe;\n"


def measure(program, text):
    """Seconds and kilobytes of one run, less those of an empty one."""
    data = text.encode()
    data = b"%d\n" % len(data) + data
    best, most = None, 0
    for _ in range(3):
        begin = time.perf_counter()
        child = subprocess.Popen([program], stdin=subprocess.PIPE, stdout=subprocess.PIPE)
        printed, _ = child.communicate(data)
        seconds = time.perf_counter() - begin
        most = max(most, memory_of(program, data))
        best = seconds if best is None else min(best, seconds)
    return best, most, printed.decode().strip()


def memory_of(program, data):
    """Kilobytes at the most, by /usr/bin/time where that is there."""
    if not os.access("/usr/bin/time", os.X_OK):
        return 0
    done = subprocess.run(["/usr/bin/time", "-f", "%M", program], input=data, stdout=subprocess.PIPE, stderr=subprocess.PIPE)
    return int(done.stderr.split()[-1])


def main():
    program = sys.argv[1]
    for name, make in [("declarations", declarations), ("chains", chains), ("parentheses", parentheses)]:
        first = None
        for kib in SIZES:
            text = make(kib * 1024)
            seconds, kilobytes, printed = measure(program, text)
            rate = seconds / len(text)
            first = first or rate
            print(f"{name:13} {len(text):8} bytes {seconds:7.3f} s {kilobytes // 1024:4} MB  ratio {rate / first:4.2f}  {printed[:40]}")


if __name__ == "__main__":
    main()
