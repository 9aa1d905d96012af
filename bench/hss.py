#!/usr/bin/env -S python3 -B
# Measures hash-based signatures against the SHA-256 digests that they need: making a key, signing, verifying, and verifying
# below an endorsed key. All times are processor times of one run of a program over crates/gl_hss, built in a
# folder of its own, and each is divided by the time of as many digests of one block in the same run. Prints the least ratio of
# three rounds, and fails where one is above its limit.
import hashlib
import json
import os
import shutil
import subprocess
import sys
import tempfile

TOP = os.path.join(os.path.dirname(os.path.abspath(__file__)), "..")
LIMITS = {"make": 1.25, "sign": 1.25, "verify": 1.3, "verify below": 1.3}
LEAVES, CHAINS = 1024, 67

PROGRAM = """#![tactic(auto)]

use gl_hss::{EndorsedKey, HssPublic, HssSigner, Levels, LmsKey, Types, verify, verify_below};
use sha2::{Digest, Sha256};
use std::time::CpuClock;

// So many digests of one block each, one after the other.
fn digests(count: u32) -> [u8; 32] {
    let mut value = [7; 32];
    for _ in 0..count {
        value = Sha256::digest(value.as_slice());
    }
    value
}

fn main(rt: HostRuntime) -> Result<(), anyhow::Error> {
    for round in 0..3u8 {
        let service = LmsKey::make(rt.alloc(), [round; 32], Types::H5W4)?;
        let identity = service.hss_public(Levels::Two);

        let start = rt.thread_cpu_time()?;
        let last = digests(1_000_000);
        let plain = rt.thread_cpu_time()?.saturating_sub(start).as_micros();

        let start = rt.thread_cpu_time()?;
        let key = LmsKey::make(rt.alloc(), [round + 100; 32], Types::H10W4)?;
        let make = rt.thread_cpu_time()?.saturating_sub(start).as_micros();

        let public = key.public();
        let endorsement = service.sign_leaf(0, &public)?;
        let endorsed = EndorsedKey::new(identity, public, service.sign_leaf(0, &public)?)?;
        let mut signer = HssSigner::new(key, Some(endorsement), 0);
        let mut signatures = Vec::with_capacity(rt.alloc(), 1024)?;

        let start = rt.thread_cpu_time()?;
        for _ in 0..1024u32 {
            let _ = signer.reserve();
            let _ = signatures.push(signer.sign(&[round; 32])?);
        }
        let sign = rt.thread_cpu_time()?.saturating_sub(start).as_micros();

        let start = rt.thread_cpu_time()?;
        let mut accepted = 0u32;
        for signature in &signatures {
            if verify(&identity, &[round; 32], signature).is_ok() {
                accepted = accepted.saturating_add(1);
            }
        }
        let whole = rt.thread_cpu_time()?.saturating_sub(start).as_micros();

        let start = rt.thread_cpu_time()?;
        for signature in &signatures {
            if verify_below(&endorsed, &[round; 32], signature).is_ok() {
                accepted = accepted.saturating_add(1);
            }
        }
        let below = rt.thread_cpu_time()?.saturating_sub(start).as_micros();

        println!(rt; "[{plain}, {make}, {sign}, {whole}, {below}, {accepted}, {}, {public:?}]", last[0])?;
    }
    Ok(())
}
"""


def sha256(*parts):
    return hashlib.sha256(b"".join(parts)).digest()


def identifier(seed):
    return sha256(b"gl-id", seed)[:16]


# The digits of four bits that a leaf of a seed's key signs of a message (RFC 8554, 4.4 and 4.5).
def digits(seed, leaf, message):
    head = identifier(seed) + leaf.to_bytes(4, "big")
    randomizer = sha256(head, b"\xff\xfd\xff", seed)
    digest = sha256(head, b"\x81\x81", randomizer, message)
    shown = [digit for byte in digest for digit in (byte >> 4, byte & 15)]
    check = sum(15 - digit for digit in shown)
    return shown + [check >> 8, check >> 4 & 15, check & 15]


def blocks(length):
    return (length + 9 + 63) // 64


# The blocks of the digests from a message to the root of a tree of this height.
def verified(height, message, shown):
    chains = sum(15 - digit for digit in shown)
    return blocks(54 + len(message)) + chains + blocks(22 + 32 * CHAINS) + blocks(54) + height * blocks(86)


# The blocks of one round, by what is measured.
def counts(round, public):
    service, key, message = bytes([round]) * 32, bytes([round + 100]) * 32, bytes([round]) * 32
    shown = [digits(key, leaf, message) for leaf in range(LEAVES)]
    below = sum(verified(10, message, one) for one in shown)
    return {
        "make": LEAVES * (CHAINS * 16 + blocks(22 + 32 * CHAINS) + blocks(54)) + (LEAVES - 1) * blocks(86),
        "sign": sum(1 + blocks(54 + len(message)) + sum(1 + digit for digit in one) for one in shown),
        "verify": below + LEAVES * verified(5, public, digits(service, 0, public)),
        "verify below": below,
    }


def rounds(work):
    crate = os.path.join(work, "crates", "hss_bench")
    os.makedirs(os.path.join(crate, "src"))
    shutil.copytree(os.path.join(TOP, "crates", "gl_hss"), os.path.join(work, "crates", "gl_hss"), ignore=shutil.ignore_patterns("out"))
    for path, text in [
        (os.path.join(work, "crates.txt"), "gl_hss: thiserror sha2\nhss_bench: gl_hss sha2 anyhow\n"),
        (os.path.join(crate, "stdin"), ""),
        (os.path.join(crate, "src", "main.rt"), PROGRAM),
    ]:
        with open(path, "w") as file:
            file.write(text)
    made = subprocess.run(["rt", "run"], cwd=crate, stdout=subprocess.PIPE, stderr=subprocess.STDOUT, text=True)
    if made.returncode != 0:
        sys.exit(made.stdout)
    return [json.loads(line) for line in made.stdout.splitlines() if line.startswith("[")]


def main():
    least = {}
    with tempfile.TemporaryDirectory() as work:
        for round, (plain, *times, accepted, _, public) in enumerate(rounds(work)):
            assert accepted == 2 * LEAVES, accepted
            for (name, count), time in zip(counts(round, bytes(public)).items(), times):
                least[name] = min(least.get(name, 99), time / (count * plain / 1_000_000))
    for name, ratio in least.items():
        print(f"{name}: {ratio:.2f} times its digests, at most {LIMITS[name]}")
    sys.exit(0 if len(least) == len(LIMITS) and all(least[name] <= LIMITS[name] for name in least) else 1)


main()
