#!/usr/bin/env python3
"""Writes the test cases of AES-128 and SHAKE256 that the program `vectors` reads, to standard output.

Every expected value comes from outside: OpenSSL (by the package cryptography) enciphers, hashlib computes SHAKE256. The published
cases are checked against both before they are written. Nothing here is random from run to run.

    tools/make-vectors.py > crates/vectors/stdin
"""
import hashlib
import random

from cryptography.hazmat.primitives.ciphers import Cipher, algorithms, modes

PUBLISHED_AES = [
    # FIPS 197, appendix B and appendix C.1
    ("2b7e151628aed2a6abf7158809cf4f3c", "3243f6a8885a308d313198a2e0370734", "3925841d02dc09fbdc118597196a0b32"),
    ("000102030405060708090a0b0c0d0e0f", "00112233445566778899aabbccddeeff", "69c4e0d86a7b0430d8cdb78070b4c55a"),
    # SP 800-38A, section F.1.1
    ("2b7e151628aed2a6abf7158809cf4f3c", "6bc1bee22e409f96e93d7e117393172a", "3ad77bb40d7a3660a89ecaf32466ef97"),
    ("2b7e151628aed2a6abf7158809cf4f3c", "ae2d8a571e03ac9c9eb76fac45af8e51", "f5d3d58503b9699de785895a96fdbaaf"),
    ("2b7e151628aed2a6abf7158809cf4f3c", "30c81c46a35ce411e5fbc1191a0a52ef", "43b1cd7f598ece23881b00e3ed030688"),
    ("2b7e151628aed2a6abf7158809cf4f3c", "f69f2445df4f9b17ad2b417be66c3710", "7b0c785e27e8ad3f8223207104725dd4"),
]
# The first bytes of the published outputs for the empty message and for 200 bytes a3.
PUBLISHED_SHAKE = [(b"", "46b9dd2b0ba88d13"), (b"\xa3" * 200, "cd8a920ed141aa04")]


def aes(key, block):
    encryptor = Cipher(algorithms.AES(key), modes.ECB()).encryptor()
    return encryptor.update(block) + encryptor.finalize()


def shake(message, length):
    return hashlib.shake_256(message).digest(length)


def write_aes(key, block):
    print("aes128", key.hex(), block.hex(), aes(key, block).hex())


def write_shake(message, taken, given, length):
    """The message is taken in pieces of `taken` bytes, and the output given in pieces of `given`."""
    print("shake256", message.hex() or "-", taken, given, shake(message, length).hex())


for key, block, expected in PUBLISHED_AES:
    assert aes(bytes.fromhex(key), bytes.fromhex(block)).hex() == expected
    write_aes(bytes.fromhex(key), bytes.fromhex(block))
zero = bytes(16)
for bits in range(1, 129):
    pattern = ((2**bits - 1) << (128 - bits)).to_bytes(16, "big")
    write_aes(zero, pattern)
    write_aes(pattern, zero)
draw = random.Random(197)
for _ in range(64):
    write_aes(draw.randbytes(16), draw.randbytes(16))

for message, start in PUBLISHED_SHAKE:
    assert shake(message, 8).hex() == start
    for taken, given in ((200, 300), (1, 1), (136, 136), (7, 135)):
        write_shake(message, taken, given, 300)
draw = random.Random(202)
for length in [*range(0, 20), *range(126, 146), *range(262, 282), 407, 408, 409, 1000]:
    message = draw.randbytes(length)
    for taken, given in ((300, 300), (draw.randrange(1, 140), draw.randrange(1, 140))):
        write_shake(message, taken, given, draw.choice((1, 32, 64, 135, 136, 137, 150)))

# One operation repeated, each time on the last result.
print("repeat block 10")
