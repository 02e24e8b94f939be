#!/usr/bin/env python3
"""Puts real signatures in the place of the stand-in: roots that this program signs with Ed25519 are taken by a `Client`.

    ed25519.py LIBRARY      LIBRARY is the shared library that coniks.py loads, as ./libconiks.so

A good chain is taken, an altered root is refused, and a fork is evidence. Needs the package cryptography: it says so
where that is missing.
"""

import hashlib
import struct
import sys

from coniks import KINDS, BadSignature, Caught, Client, Library

try:
    from cryptography.exceptions import InvalidSignature
    from cryptography.hazmat.primitives.asymmetric.ed25519 import Ed25519PrivateKey, Ed25519PublicKey
    from cryptography.hazmat.primitives.serialization import Encoding, PublicFormat
except ImportError:
    print("the package cryptography is not installed: nothing was shown")
    sys.exit(0)


class Ed25519:
    """The provider's public key has 32 bytes, and a signature 64. Values are still checked by the stand-in, so look-ups
    give no security yet: put your verifiable function in the place of `accepts`."""

    def __init__(self, library):
        self.accepts = library.keyed_accepts

    @staticmethod
    def verifies(key, message, signature):
        try:
            Ed25519PublicKey.from_public_bytes(key).verify(signature, message)
        except (InvalidSignature, ValueError):
            return False
        return True


class Provider:
    """Signs roots, as a directory does. The trees are made up."""

    def __init__(self):
        self.secret = Ed25519PrivateKey.generate()
        self.public = self.secret.public_key().public_bytes(Encoding.Raw, PublicFormat.Raw)

    def root(self, epoch, before, tree):
        """A signed root, in the form of docs/FORMATS.md, that names the root with the body before, if there is one; and its
        own body. Nonce and key of the verifiable function are zeros."""
        previous, digest = before[2:10] if before else bytes(8), hashlib.sha256(before).digest() if before else bytes(32)
        body = b"R\x01" + struct.pack(">Q", epoch) + previous + tree + digest + bytes(64)
        signature = self.secret.sign(body)
        return body + struct.pack(">H", len(signature)) + signature, body


def main(path):
    library, provider = Library(path), Provider()
    first, first_body = provider.root(1, None, b"1" * 32)
    second, second_body = provider.root(2, first_body, b"2" * 32)
    third, _ = provider.root(3, second_body, b"3" * 32)

    client = Client(library, Ed25519(library), provider.public, first)
    client.take_list([second, third])
    print("taken: epochs", ", ".join(str(client.epoch(root)) for root in client.roots))

    altered = second[:20] + bytes([second[20] ^ 1]) + second[21:]
    try:
        client.take(altered)
    except BadSignature:
        print("refused: the altered root")

    fork, _ = provider.root(2, first_body, b"4" * 32)
    try:
        client.take(fork)
    except Caught as caught:
        print("evidence:", KINDS[caught.args[0]])
    return 0


if __name__ == "__main__":
    if len(sys.argv) != 2:
        sys.exit(__doc__)
    sys.exit(main(sys.argv[1]))
