#!/usr/bin/env python3
"""What the program `checks` prints of messages and container values at the limit:  limits.py

The last lines of crates/checks/stdout, made by the model and not by the program: the calls of `lengths` in crates/checks/src/main.rt, in its order.
"""
from model import Context, Refusal

KEY = bytes(range(16))


def number(call):
    """0 and the octets that a call writes, or its refusal and none."""
    try:
        return 0, call()[3]
    except Refusal as refusal:
        return refusal.number, b""


def fresh():
    return Context(2, 2, KEY, KEY)


def put(octets, buffer):
    buffer[:len(octets)] = octets


def sealed(name, call, message, at):
    answer, octets = number(call)
    put(octets, message)
    print(f"{name}: {answer}\n  code: {message[at:at + 4].hex()}")


def opened(name, call, inner, plain):
    answer, octets = number(call)
    put(octets, plain)
    print(f"{name}: {answer}\n  output: {'' if plain[:len(inner)] == inner else 'not '}what was sealed")


def messages(n):
    inner = b"\x7e\x00\x68" + b"\x5a" * (n - 3)
    message, plain = bytearray(b"\x7e\x01" + bytes(65541)), bytearray(65543)
    sealed("seal", lambda: fresh().seal(False, 2, 1, 1, 65543, inner), message, 2)
    sealed("opaque seal", lambda: fresh().seal(True, 1, 1, 2, 65543, inner), message, 2)
    for _ in range(2):
        opened("open", lambda: fresh().open(1, 2, 65543, 1, bytes(message[:n + 7])), inner, plain)
        message[n + 6] = 0xA5


def eps_messages(n):
    inner = b"\x07\x48" + b"\x5a" * (n - 2)
    message, plain = bytearray(b"\x17" + bytes(65542)), bytearray(65543)
    sealed("EPS seal", lambda: fresh().eps_seal(65543, inner), message, 1)
    for _ in range(2):
        opened("EPS open", lambda: fresh().eps_open(65543, bytes(message[:n + 6])), inner, plain)
        message[n + 5] = 0xA5


def containers(n):
    value = b"\x22" + b"\x5a" * (n - 5)
    code = fresh().code(0xFFFFFFFF, 1, 1, value)
    for last in (b"\x5a", b"\xa5"):
        print("verify S1 to N1:", number(lambda: fresh().verify_s1_to_n1(code + value[:-1] + last))[0])


def main():
    for n in (8192, 8193, 65535, 65536):
        print("octets:", n)
        messages(n)
        eps_messages(n)
        containers(n)


if __name__ == "__main__":
    main()
