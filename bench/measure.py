"""What the benchmarks share: processor time of commands, measured in turn on the same file."""

import os
import subprocess
import sys

TOP = os.path.dirname(os.path.dirname(os.path.abspath(__file__)))
RUNS = 11
# How many runs there are where one takes seconds.
FEW = 3
# `wc -w` is a quarter faster here than in the locale C; the ratios are to the faster one.
LOCALE = "C.UTF-8"


def processor_time(words, status):
    """Seconds of user and system time of one run, whose output is thrown away. A status other than
    the wanted one ends the benchmark."""
    nothing = os.open(os.devnull, os.O_RDWR)
    streams = [(os.POSIX_SPAWN_DUP2, nothing, stream) for stream in (0, 1, 2)]
    environment = {**os.environ, "LC_ALL": LOCALE}
    process = os.posix_spawnp(words[0], words, environment, file_actions=streams)
    os.close(nothing)
    _, ended, usage = os.wait4(process, 0)
    if os.waitstatus_to_exitcode(ended) != status:
        sys.exit(f"{' '.join(words)}: ended with {os.waitstatus_to_exitcode(ended)}, not {status}")
    return usage.ru_utime + usage.ru_stime


def least_times(commands):
    """The least time of each command, a list of words and the status it ends with. They run in turn,
    so that a busy moment of the machine doesn't fall on one of them alone."""
    rounds = [[processor_time(words, status) for words, status in commands] for _ in range(RUNS)]
    return [min(times) for times in zip(*rounds)]


def least(commands):
    """The least time of all these commands, one after the other, over a few runs."""
    return min(sum(processor_time(words, 0) for words in commands) for _ in range(FEW))


def printed(words):
    return subprocess.run(words, check=True, capture_output=True, text=True).stdout


def proved_program():
    """The path of the proved program; where there is none the launcher says so, and the benchmark ends."""
    done = subprocess.run([os.path.join(TOP, "tilecatnip"), "--program"], stdout=subprocess.PIPE, text=True)
    if done.returncode:
        sys.exit(done.returncode)
    return done.stdout.strip()


def verilator_commands(folder, sources):
    """The commands that compile the module `bench` by Verilator, from nothing, and the one that runs it."""
    made = os.path.join(folder, "made")
    flags = ["--binary", "--timing", "--language", "1364-2005", "-Wno-fatal", "-O3", "--top-module", "bench", "--Mdir", made]
    return [["rm", "-rf", made], ["verilator", *flags, *sources]], [os.path.join(made, "Vbench")]


def verilated_commands(folder, verilog, driver):
    """The commands that compile a generated text with its driver in C++, and the one that runs them."""
    made = os.path.join(folder, "made")
    flags = ["--cc", "--exe", "--build", "-Wno-fatal", "-O3", "-CFLAGS", "-O2", "--top-module", "fx_model", "--Mdir", made]
    return [["rm", "-rf", made], ["verilator", *flags, verilog, driver]], [os.path.join(made, "Vfx_model")]


def report(what, size, time, ruler, ruler_time):
    """Prints one line: the speed, and the ratio to the ruler on the same file in the same run."""
    speed = size / time / 1e6
    print(
        f"{what}: {speed:.0f} MB/s ({time * 1e3:.1f} ms of processor time), "
        f"{time / ruler_time:.1f} times {ruler} ({ruler_time * 1e3:.1f} ms)"
    )


def report_machine(runs=RUNS):
    """Prints how busy the machine is, on which the ratios depend a little and the speeds much."""
    print(f"least of {runs} runs each; load {os.getloadavg()[0]:.1f} on {os.cpu_count()} processors")
