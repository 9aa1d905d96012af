# The built program, timed: what the scripts beside this file share.
import os
import subprocess
import sys

CRATE = os.path.join(os.path.dirname(os.path.abspath(__file__)), "..", "crates", "ccfg")
PROGRAM = os.path.join(CRATE, "out", "ccfg")
WORLD = "world 1 0 1 open " + "00" * 32

# Digests of one block, one after the other, and nothing else.
DIGESTS = """#![tactic(auto)]

use sha2::{Digest, Sha256};

fn main(rt: HostRuntime) -> Result<(), anyhow::Error> {
    let mut value = [7; 32];
    for _ in 0..5_000_000u32 {
        value = Sha256::digest(value.as_slice());
    }
    println!(rt; "{}", value[0])?;
    Ok(())
}
"""


# Proves the program and compiles it, where that was not done yet.
def build():
    made = subprocess.run(
        ["rt", "run", "--", "replay"],
        cwd=CRATE, stdin=subprocess.DEVNULL, stdout=subprocess.PIPE, stderr=subprocess.STDOUT,
    )
    if made.returncode != 0:
        sys.stdout.buffer.write(made.stdout)
        sys.exit(1)


# Runs a command from a file to a file, and prints its processor time in seconds and its peak of memory in bytes.
RUN = """
import os, sys
source, out, *command = sys.argv[1:]
child = os.fork()
if child == 0:
    os.dup2(os.open(source, os.O_RDONLY), 0)
    os.dup2(os.open(out, os.O_WRONLY | os.O_CREAT | os.O_TRUNC), 1)
    os.execvp(command[0], command)
_, status, used = os.wait4(child, 0)
assert status == 0, status
print(used.ru_utime + used.ru_stime, used.ru_maxrss * 1024)
"""


# What RUN prints. The system counts as a child's peak also what its parent held when it made the child. So the parent is a
# small process, of some 6 MiB, and not this one, which may hold a whole ledger.
def run(command, source, out):
    words = [sys.executable, "-I", "-S", "-c", RUN, source, out, *command]
    time, peak = subprocess.run(words, stdout=subprocess.PIPE, check=True, text=True).stdout.split()
    return float(time), int(peak)


# Replays a schedule so many times: its least processor time, its peak of memory, the size of its text, and what it wrote.
def replay(work, lines, times):
    text, out = f"{work}/schedule", f"{work}/text"
    with open(text, "w") as file:
        file.write("\n".join(lines) + "\n")
    runs = [run([PROGRAM, "replay"], text, out) for _ in range(times)]
    with open(out) as file:
        written = file.read().splitlines()
    return min(time for time, _ in runs), max(peak for _, peak in runs), os.path.getsize(text), written


# The blocks of SHA-256's input of so many bytes.
def blocks(length):
    return (length + 9 + 63) // 64


# The time of one digest of one block.
def digest(work):
    crate = os.path.join(work, "crates", "digests")
    os.makedirs(os.path.join(crate, "src"))
    for path, text in [
        (os.path.join(work, "crates.txt"), "digests: sha2 anyhow\n"),
        (os.path.join(crate, "stdin"), ""),
        (os.path.join(crate, "src", "main.rt"), DIGESTS),
    ]:
        with open(path, "w") as file:
            file.write(text)
    made = subprocess.run(["rt", "run"], cwd=crate, stdout=subprocess.PIPE, stderr=subprocess.STDOUT, text=True)
    if made.returncode != 0:
        sys.exit(made.stdout)
    command = [os.path.join(crate, "out", "digests")]
    return min(run(command, os.devnull, f"{work}/out")[0] for _ in range(5)) / 5_000_000
