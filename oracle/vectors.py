#!/usr/bin/env python3
"""Other implementations of the figures that crates/rfc_vectors prints: hashlib's BLAKE2b, and for Argon2 the plain Rust copy.

crates/rfc_vectors/stdout is made by
    oracle/build && python3 oracle/vectors.py > crates/rfc_vectors/stdout
"""
import hashlib
import subprocess

INPUTS = [bytes([1]) * 32, bytes([2]) * 16, bytes([3]) * 8, bytes([4]) * 12]  # password, salt, secret, data
ORDERS = 7


def blake2b(n, message):
    return hashlib.blake2b(message, digest_size=n).digest()


def long(n, message):
    """RFC 9106, 3.3."""
    message = n.to_bytes(4, "little") + message
    if n <= 64:
        return blake2b(n, message)
    v, out = blake2b(64, message), b""
    while n - len(out) > 64:
        out += v[:32]
        rest = n - len(out)
        v = blake2b(min(rest, 64), v)
    return out + v


def counting(n):
    return bytes(k % 256 for k in range(n))


print("abc", blake2b(64, b"abc").hex())
for size in (0, 1, 127, 128, 129, 255, 256, 1000):
    for n in (1, 20, 32, 48, 63, 64):
        print("blake2b", size, n, blake2b(n, counting(size)).hex())
for n in (1, 31, 32, 33, 63, 64, 65, 66, 95, 96, 97, 98, 127, 128, 129, 1024):
    print("blake2b_long", 72, n, long(n, counting(72)).hex())


def argon2(algorithm, version, memory, passes, lanes):
    """The lines of some parameters: the tag and the memory are the same by every way."""
    def le32(n):
        return n.to_bytes(4, "little")

    front = f"argon2 {algorithm} {version} {memory} {passes} {lanes}"
    header = b"".join(le32(n) for n in (lanes, 32, memory, passes, version, algorithm))
    counted = b"".join(le32(len(text)) + text for text in INPUTS)
    print(front, "initial", blake2b(64, header + counted).hex())
    words = 128 * 4 * lanes * (memory // (4 * lanes))
    case = f"hash {algorithm} {version} {memory} {passes} {lanes} - 32 {words} 1 " + " ".join(text.hex() for text in INPUTS)
    done = subprocess.run(["target/oracle/compare-oracle", "answer", "plain"], input=case + "\n", stdout=subprocess.PIPE, text=True, check=True)
    answer, tag, digest = done.stdout.split()
    assert answer == "0"
    for way in ["whole"] + [f"order {k}" for k in range(ORDERS)]:
        print(front, way, "tag", tag, "memory", digest, "kept")


for version in (19, 16):
    for algorithm in (0, 1, 2):
        argon2(algorithm, version, 32, 3, 4)
argon2(0, 19, 8, 1, 1)
argon2(1, 19, 47, 2, 3)
argon2(2, 16, 40, 2, 2)
