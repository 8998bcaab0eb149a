#!/usr/bin/env python3
"""Measures the proved program on the largest inputs that it takes, and on half of each.

Usage, at the top of the repository, after `(cd crates/vsm_main && rt run -- trace < ../../examples/...)` has built the
program: `python3 bench/run.py [PROGRAM]`. It makes its scripts in a temporary folder and prints one line a case: the
size of the input, the size of the output, the best time of five runs, the peak memory, and how many times as fast it is
as the stored run of the same case. A peak below this script's own, about 18 MiB, isn't seen: the system counts it to the
program that it starts.

`python3 bench/run.py PROGRAM --store` stores the run of a program in `bench/stored.txt`, a line a case: its name, a tab,
and its seconds. A ratio says something only on the machine of the stored run, and best in one go: store the older
program's run first, then measure the newer one.
"""
import os
import subprocess
import sys
import tempfile
import time

STORED = os.path.join(os.path.dirname(os.path.abspath(__file__)), "stored.txt")
WORDS = [word for word in sys.argv[1:] if word != "--store"]
STORES = "--store" in sys.argv[1:]
PROGRAM = WORDS[0] if WORDS else "crates/vsm_main/out/vsm_main"
RUNS = 5
PAGES = 256
# Four tables stand on pages 2 to 5, and map page I at I * 4096 from page 6 on.
TABLES = ["word 2 0 0x3007", "word 3 0 0x4007", "word 4 0 0x5007"] + [
    f"word 5 {page} {page * 4096 + 7:#x}" for page in range(6, PAGES)
]
PAGING_ON = ["set Cr3 0x2000", "set Cr0 0x80000001"]


def script(vps, lines, programs, schedule, pages=PAGES):
    head = ["vsm 1", f"vps {vps}", f"pages {pages}", "budget 10000", f"started {vps}"]
    bodies = []
    for vp, program in enumerate(programs):
        bodies += [f"program {vp} 0"] + program
    return "\n".join(head + lines + bodies + schedule + ["end"]) + "\n"


def walker(vp):
    """Stores and loads through the tables, over pages of its own, again and again."""
    ops = []
    for k in range(31):
        address = (6 + vp * 31 + k) * 4096 + k * 8
        ops += [f"store {address:#x} {k + 1}", f"load Rax {address:#x}"]
    return PAGING_ON + ops + ["jump 2"]


def walks(vps, turns):
    each = turns // vps
    return script(vps, TABLES, [walker(vp) for vp in range(vps)], [f"schedule {' '.join(f'{vp}*{each}' for vp in range(vps))}"])


def in_turns(vps, turns):
    """The same with a schedule entry for each turn."""
    line = "schedule " + " ".join(str(vp) for vp in range(vps))
    return script(vps, TABLES, [walker(vp) for vp in range(vps)], [line] * (turns // vps))


def paging_off(vps, turns):
    """Stores and loads of eight processors with paging off, over pages of their own."""
    bodies = []
    for vp in range(vps):
        ops = []
        for k in range(31):
            address = (6 + vp * 31 + k) * 4096 + k * 8
            ops += [f"store {address:#x} {k + 1}", f"load Rax {address:#x}"]
        bodies.append(ops + ["jump 0"])
    return script(vps, [], bodies, [f"schedule {' '.join(f'{vp}*{turns // vps}' for vp in range(vps))}"])


def spins(turns):
    return script(8, [], [["spin 0x1000 1"]] * 8, [f"schedule {' '.join(f'{vp}*{turns // 8}' for vp in range(8))}"])


def words(count):
    lines = [f"word {k // 512} {k % 512} {k + 1}" for k in range(count)]
    return script(1, lines, [["load Rax 0"]], ["schedule 0"])


SELF = "0xffffffffffffffff"


def rounds(turns):
    """Level 1 of processor 0 gives 256 pages their masks again and again, eight a turn; the other processors store and load."""
    words = [f"word 1 0 {SELF}", "word 1 1 0x1fffffffe", f"word 2 0 {SELF}", "word 2 1 0xfffffffe", "word 2 2 0xd0007", "word 2 4 0x1f"]
    words += [f"word 3 0 {SELF}", "word 3 1 15"] + [f"word 3 {2 + page} {page}" for page in range(PAGES)]
    zero = ["set Rcx 0x1000d", f"set Rdx {SELF}", "set R8 1", "hypercall", "set Rcx 0xf", "set Rdx 0x1000", "hypercall", "set Rcx 0", "vtlcall"]
    one = ["set Rcx 0x100000051", "set Rdx 0x2000", "hypercall", "set Rcx 0x1000000000c", "set Rdx 0x3000", "hypercall", "jump 3"]
    stores = [op for k in range(31) for op in (f"store {(6 + k) * 4096:#x} {k + 1}", f"load Rax {(6 + k) * 4096:#x}")] + ["jump 0"]
    head = ["vsm 1", "vps 8", f"pages {PAGES}", "budget 10000", "started 8"] + words
    bodies = ["program 0 0"] + zero + ["program 0 1"] + one
    for vp in range(1, 8):
        bodies += [f"program {vp} 0"] + stores
    lines = ["schedule " + " ".join(str(vp) for vp in range(8))] * turns
    return "\n".join(head + bodies + lines + ["end"]) + "\n"


LIMIT = 1_048_576


def full_of_words(last):
    """A script of exactly as many bytes as may be, of word lines but for its head and its end."""
    head = "vsm 1\nvps 1\npages 256\nbudget 1\nstarted 1\n"
    lines, size, k = [], len(head) + len(last) + 1, 0
    while True:
        line = f"word {k // 512} {k % 512} {k + 1:#x}\n"
        if size + len(line) > LIMIT:
            break
        lines.append(line)
        size += len(line)
        k += 1
    return head + "".join(lines) + "#" * (LIMIT - size) + "\n" + last


def made(n):
    """What the program makes of a number."""
    return subprocess.run([PROGRAM, "make", str(n)], check=True, capture_output=True, text=True).stdout


# A name, the words of the command line, the input, and the status that it is to end with.
CASES = [
    ("walks, 8 processors, 80,000 turns", ["trace"], walks(8, 80_000), 0),
    ("walks, 8 processors, 40,000 turns", ["trace"], walks(8, 40_000), 0),
    ("walks, 1 processor, 10,000 turns", ["trace"], walks(1, 10_000), 0),
    ("walks, an entry a turn, 80,000 turns", ["trace"], in_turns(8, 80_000), 0),
    ("walks, an entry a turn, 40,000 turns", ["trace"], in_turns(8, 40_000), 0),
    ("paging off, 8 processors, 80,000 turns", ["trace"], paging_off(8, 80_000), 0),
    ("spins in vain, 100,000 turns", ["trace"], spins(100_000), 0),
    ("spins in vain, 50,000 turns", ["trace"], spins(50_000), 0),
    ("rounds over 256 pages, 8 processors, 10,000 turns each", ["trace"], rounds(10_000), 0),
    ("rounds over 256 pages, 8 processors, 5,000 turns each", ["trace"], rounds(5_000), 0),
    ("50,000 words", ["trace"], words(50_000), 0),
    ("25,000 words", ["trace"], words(25_000), 0),
    ("make 1000", ["make", "1000"], "", 0),
    ("make 500", ["make", "500"], "", 0),
    ("trace of make 1000", ["trace"], made(1000), 0),
    ("trace of make 500", ["trace"], made(500), 0),
    ("sample 1000", ["sample", "1000"], "", 0),
    ("sample 500", ["sample", "500"], "", 0),
    ("word lines up to the limit", ["trace"], full_of_words("end\n"), 0),
    ("word lines up to the limit, the last line refused", ["trace"], full_of_words("ends\n"), 2),
]


def run(words, path, out, wanted):
    """Runs the program once, and tells its time in seconds and its peak memory in KiB."""
    begin = time.perf_counter()
    pid = os.fork()
    if pid == 0:
        os.dup2(os.open(path, os.O_RDONLY), 0)
        os.dup2(os.open(out, os.O_WRONLY | os.O_CREAT | os.O_TRUNC, 0o644), 1)
        os.execv(PROGRAM, [PROGRAM] + words)
    _, status, usage = os.wait4(pid, 0)
    seconds = time.perf_counter() - begin
    if os.waitstatus_to_exitcode(status) != wanted:
        sys.exit(f"{PROGRAM} {' '.join(words)} ended with {os.waitstatus_to_exitcode(status)} on {path}")
    return seconds, usage.ru_maxrss


def stored():
    """The seconds of each case of the stored run, if there is one."""
    if not os.path.exists(STORED):
        return {}
    with open(STORED) as file:
        return {name: float(seconds) for name, seconds in (line.rstrip("\n").split("\t") for line in file)}


def ratio(before, seconds):
    return f"{before / seconds:.1f} times as fast" if before else "no stored run"


before, kept = stored(), []
with tempfile.TemporaryDirectory() as folder:
    for name, words, text, wanted in CASES:
        path, out = os.path.join(folder, "script"), os.path.join(folder, "report")
        with open(path, "w") as file:
            file.write(text)
        runs = [run(words, path, out, wanted) for _ in range(RUNS)]
        seconds, peak = min(r[0] for r in runs), max(r[1] for r in runs)
        print(f"{name}: input {len(text):,} bytes, output {os.path.getsize(out):,} bytes, {seconds:.3f} s, {peak / 1024:.1f} MiB, {ratio(before.get(name), seconds)}")
        kept.append(f"{name}\t{seconds:.4f}\n")
if STORES:
    with open(STORED, "w") as file:
        file.writelines(kept)
