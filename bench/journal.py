#!/usr/bin/env -S python3 -B
# Measures a node's file on the disk of the machine: committing 2,000 batches of 1 KiB (11 entries), against plain writes of as many bytes with
# two writes and two syncs each; and opening a file of 100,000 entries, against reading and hashing its bytes. The program over
# crates/gl_journal and crates/gl_system is built in a folder of its own. Prints the rate of both kinds of batch by the clock, and
# the processor times of opening and of hashing. Fails where batches have less than 0.9 of the plain rate, or where opening takes
# more than three times hashing.
import os
import shutil
import subprocess
import sys
import tempfile
import time

import program

TOP = os.path.join(os.path.dirname(os.path.abspath(__file__)), "..")
BATCHES, SIZE, ENTRIES, ROUNDS = 2_000, 11 * 98, 100_000, 3

PROGRAM = """#![tactic(auto)]

use gl_base::OrNoMemory;
use gl_system::FileDisk;
use gl_journal::{FrameLog, Journal, JournalFault, Key, KeyKind, Record, batch_len};
use gl_hss::Types;
use gl_outside::Disk;
use sha2::{Digest, Sha256};
use std::alloc::{AllocError, Global};
use std::env;

const KEY: Key = Key { kind: KeyKind::Node, types: Types::H5W4, seed: [7; 32] };

// The frame of an entry of evidence: its digest, no writes and no claims are zero bytes.
const FRAME: &[u8] = b"\\x01\\0\\x55\\0\\0\\0\\0\\0\\x02\\0\\0\\0\\x01\\0\\0\\0\\0\\0\\0\\0\\x04\\x20\\0\\0\\0ZEROS";

fn keep(journal: &mut Journal<FileDisk>, batch: &[Record<'_>]) -> Result<(), OrNoMemory<JournalFault>> {
    let Some(len) = batch_len(batch) else {
        return Err(OrNoMemory::NoMemory);
    };
    if len > 0xffff_ffff {
        return Err(OrNoMemory::NoMemory);
    }
    journal.room(len)?;
    journal.commit_batch(batch).map_err(JournalFault::from)?;
    Ok(())
}

// A batch of so many entries.
fn batch(alloc: Global, count: u32) -> Result<Vec<Record<'static>>, AllocError> {
    let mut records = Vec::new(alloc);
    for _ in 0..count {
        records.push(Record::Append { frame: FRAME })?;
    }
    Ok(records)
}

// How many of so many batches are kept in a new file.
fn fill(alloc: Global, disk: FileDisk, batches: u32, entries: u32) -> Result<u32, AllocError> {
    let records = batch(alloc, entries)?;
    let Ok(mut journal) = Journal::create(alloc, disk, KEY) else {
        return Ok(0);
    };
    let mut kept: u32 = 0;
    for _ in 0..batches {
        if keep(&mut journal, &records).is_ok() {
            kept = kept.saturating_add(1);
        }
    }
    Ok(kept)
}

// How many entries a file opens to.
fn open(alloc: Global, disk: FileDisk) -> usize {
    match Journal::open::<FrameLog>(alloc, disk) {
        Ok((_, state)) => state.log.frames.len(),
        Err(_) => 0,
    }
}

// The first byte of the digest of a file.
fn hash(alloc: Global, disk: FileDisk) -> Result<u8, AllocError> {
    let mut disk = disk;
    let len = disk.len().unwrap_or(0);
    let mut bytes = vec![in alloc; 0; len as usize]?;
    let _ = disk.read_at(0, &mut bytes);
    Ok(Sha256::digest(bytes.as_slice())[0])
}

fn main(rt: HostRuntime) -> Result<(), anyhow::Error> {
    let alloc = rt.alloc();
    let words: Vec<String> = env::args(&rt)?.skip(1).collect(alloc)?;
    let [mode, path] = words.as_slice() else {
        return Ok(());
    };
    let disk = FileDisk::open(&rt, path.as_str());
    let told = match mode.as_str() {
        "hash" => u64::from(hash(alloc, disk)?),
        "open" => open(alloc, disk) as u64,
        "fill" => u64::from(fill(alloc, disk, 1000, 100)?),
        _ => u64::from(fill(alloc, disk, 2000, 11)?),
    };
    println!(&rt; "{told}")?;
    Ok(())
}
""".replace("ZEROS", "\\0" * (32 + 4 + 32))


def build(work):
    crate = os.path.join(work, "crates", "journal_bench")
    os.makedirs(os.path.join(crate, "src"))
    table = {}
    for line in open(os.path.join(TOP, "crates.txt")):
        name, _, stands = line.split("#")[0].partition(":")
        if stands:
            table[name.strip()] = stands.split()
    wanted = ["gl_journal", "gl_system"]
    for name in wanted:
        wanted += [below for below in table[name] if below in table and below not in wanted]
    for name in wanted:
        shutil.copytree(os.path.join(TOP, "crates", name), os.path.join(work, "crates", name), copy_function=os.link)
    lines = [f"{name}: {' '.join(table[name])}" for name in table if name in wanted]
    lines.append("journal_bench: gl_base gl_hss gl_journal gl_outside gl_system sha2 anyhow")
    for path, text in [
        (os.path.join(work, "crates.txt"), "\n".join(lines) + "\n"),
        (os.path.join(crate, "stdin"), ""),
        (os.path.join(crate, "src", "main.rt"), PROGRAM),
    ]:
        with open(path, "w") as file:
            file.write(text)
    made = subprocess.run(["rt", "run"], cwd=crate, stdout=subprocess.PIPE, stderr=subprocess.STDOUT, text=True)
    if made.returncode != 0:
        sys.exit(made.stdout)
    return os.path.join(crate, "out", "journal_bench")


# The time of a call by the clock.
def clock(call):
    start = time.monotonic()
    call()
    return time.monotonic() - start


# What a batch costs at least: its bytes and the gate after them, synced, and then the gate before them, synced.
def plain(path):
    file = os.open(path, os.O_RDWR | os.O_CREAT | os.O_TRUNC, 0o600)
    piece = bytes(SIZE + 5)
    for n in range(BATCHES):
        os.pwrite(file, piece, n * len(piece) + 1)
        os.fsync(file)
        os.pwrite(file, b"\1", n * len(piece))
        os.fsync(file)
    os.close(file)


def main():
    with tempfile.TemporaryDirectory(dir=os.getcwd()) as work:
        bench = build(work)
        rates = []
        for n in range(ROUNDS):
            path = f"{work}/journal{n}"
            ours = clock(lambda: subprocess.run([bench, "batches", path], check=True, stdout=subprocess.DEVNULL))
            rates.append((BATCHES / ours, BATCHES / clock(lambda: plain(f"{work}/plain{n}"))))
            assert os.path.getsize(path) >= BATCHES * SIZE, os.path.getsize(path)
        subprocess.run([bench, "fill", f"{work}/long"], check=True, stdout=subprocess.DEVNULL)
        opening = min(program.run([bench, "open", f"{work}/long"], os.devnull, f"{work}/out")[0] for _ in range(ROUNDS))
        assert open(f"{work}/out").read().strip() == str(ENTRIES), open(f"{work}/out").read()
        hashing = min(program.run([bench, "hash", f"{work}/long"], os.devnull, f"{work}/out")[0] for _ in range(ROUNDS))
        size = os.path.getsize(f"{work}/long")
    ours, theirs = max(rate for rate, _ in rates), max(rate for _, rate in rates)
    print(f"{ours:.0f} batches of 1 KiB a second, {theirs:.0f} plain ones, ratio {ours / theirs:.2f}")
    print(f"a file of {ENTRIES:,} entries and {size / 1e6:.1f} MB opens in {opening:.3f} s, is hashed in {hashing:.3f} s, ratio {opening / hashing:.1f}")
    sys.exit(0 if ours >= 0.9 * theirs and opening <= 3 * hashing else 1)


main()
