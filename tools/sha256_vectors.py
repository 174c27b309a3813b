"""Prints what the program `vectors` must print, by Python's hashlib: crates/vectors/stdout is its output."""
import hashlib


def line(name, message):
    print(name, hashlib.sha256(message).hexdigest())


line("empty", b"")
line("abc", b"abc")
line("448-bits", b"abcdbcdecdefdefgefghfghighijhijkijkljklmklmnlmnomnopnopq")
line("million-a", b"a" * 1_000_000)
message = bytes((37 * i + 11) % 256 for i in range(130))
for length in range(131):
    line(length, message[:length])
