"""Builds the programs of the bench and runs them: the line that they have to agree on, processor time, and instructions by callgrind.

A program reads a job and prints a line (harness.rs). Time is what a program says of its own calls, in turn with the other programs, the
least of so many runs; nothing else of the process is in it. Instructions are those of the same calls, made once.
"""
import os
import re
import shutil
import struct
import subprocess
from collections import namedtuple
from concurrent.futures import ThreadPoolExecutor

CALLS = ["check", "find", "find_tested", "resolve", "resolve_tested", "list", "list_tested", "query", "query_tested", "clean", "contained"]
HERE, RUST, ORIGINAL = "here", "Rust", "original"

# How many calls of a job were answered 0, how many say 1 as their second number, and of each program the seconds of making them.
Made = namedtuple("Made", "done second spent")


# ---- programs
def built(source, program, *flags):
    """A program in Rust at its fastest: modules are optimized together, as the library is one module."""
    fast = ["-C", "opt-level=3", "-C", "codegen-units=1", "-C", "lto=fat"]
    subprocess.run(["rustc", "--edition", "2021", *fast, *flags, "-o", program, "bench/" + source], check=True)
    return program


def built_original(workspace, folder):
    """The original's own code with one more binary, built in a copy of its workspace."""
    copy = os.path.join(folder, "original")
    shutil.copytree(workspace, copy, ignore=shutil.ignore_patterns("target", "tests", "tools"))
    crate = os.path.join(copy, "protobuf-parse-run")
    pure = os.path.join(crate, "src", "pure")
    for name in ("original.rs", "harness.rs"):
        shutil.copy("bench/" + name, pure)
    with open(os.path.join(pure, "oracle.rs"), "a") as file:
        file.write('\n#[path = "original.rs"]\npub mod original;\n')
    with open(os.path.join(crate, "src", "bin", "original.rs"), "w") as file:
        file.write("fn main() {\n    protobuf_parse::pure::oracle::original::main()\n}\n")
    with open(os.path.join(crate, "Cargo.toml"), "a") as file:
        file.write('\n[[bin]]\nname = "original"\npath = "src/bin/original.rs"\n')
    command = ["cargo", "build", "-q", "--release", "--offline", "--bin", "original"]
    subprocess.run(command, cwd=copy, check=True, env={**os.environ, "RUSTFLAGS": "-A warnings"})
    return os.path.join(copy, "target", "release", "original")


def programs(library, original, folder):
    """All programs, by what they are called; the original's where there is a workspace of it."""
    out = {
        HERE: built("ours.rs", os.path.join(folder, "ours"), "-L", "native=" + library, "-l", "static=optc"),
        RUST: built("rust/main.rs", os.path.join(folder, "rust")),
    }
    if original:
        out[ORIGINAL] = built_original(original, folder)
    return out


def able(programs, job):
    """Those of the programs that have the call of a job."""
    lacking = {ORIGINAL: set(CALLS) - {"resolve_tested"}, RUST: {"clean", "contained"}}
    return {name: program for name, program in programs.items() if job.call not in lacking.get(name, ())}


# ---- runs
def strings(parts):
    return b"".join(struct.pack(">I", len(part)) + part for part in parts)


def job_bytes(job, times):
    head = [job.sheet, bytes([CALLS.index(job.call)]), struct.pack(">I", times)]
    return strings(head + [strings(case) for case in job.cases])


def run(program, data):
    return subprocess.run([program], input=data, stdout=subprocess.PIPE, check=True).stdout.decode().split()


def made(programs, job, times=0):
    """The calls of a job, made once to see that all programs answer alike, and so often to be timed. All but the original say where a call
    is refused."""
    data = job_bytes(job, times)
    lines = {name: run(program, data) for name, program in able(programs, job).items()}
    own = {tuple(line[:-1]) for name, line in lines.items() if name != ORIGINAL}
    assert len(own) == 1 and len({tuple(line[:3]) for line in lines.values()}) == 1, (job.what, lines)
    _, done, _, second, _, _ = lines[HERE]
    return Made(int(done), int(second), {name: int(line[-1]) / 1e9 for name, line in lines.items()})


def seconds(programs, job, rounds):
    """Of each program the time of one call of a job: the least of so many runs, each long enough to be told from nothing."""
    times = max(1, round(0.05 / made(programs, job, 1).spent[HERE]))
    runs = [made(programs, job, times).spent for _ in range(rounds)]
    return {name: min(spent[name] for spent in runs) / times / len(job.cases) for name in runs[0]}


def counted(program, data):
    """The instructions between start and end of the function that makes the calls. The environment is empty: what stands in it moves the
    stack, and with that what a comparison of bytes by the C library takes."""
    tool = [shutil.which("valgrind"), "--tool=callgrind", "--toggle-collect=bench_rounds", "--callgrind-out-file=" + os.devnull]
    done = subprocess.run([*tool, program], input=data, capture_output=True, check=True, env={})
    return int(re.search(rb"Collected : (\d+)", done.stderr).group(1))


def instructions(programs, jobs):
    """Of each job and each program the instructions of one call."""
    tasks = [(i, name, program) for i, job in enumerate(jobs) for name, program in able(programs, job).items()]
    with ThreadPoolExecutor(os.cpu_count()) as pool:
        counts = list(pool.map(lambda task: counted(task[2], job_bytes(jobs[task[0]], 1)), tasks))
    out = [{} for _ in jobs]
    for (i, name, _), count in zip(tasks, counts):
        out[i][name] = count / len(jobs[i].cases)
    return out
