"""Keys of types 5 and 3 by their identifiers and seeds, made once each, and those that devices and officers derive."""

import functools
import pickle

from lms import PrivateKey, sha256, u8, u32

MADE = {}


def key_of(identifier, seed):
    """The key with this identifier and seed."""
    if (identifier, seed) not in MADE:
        MADE[identifier, seed] = PrivateKey(identifier, seed)
    return MADE[identifier, seed]


@functools.lru_cache(4_096)
def signed(identifier, seed, index, text):
    """The signature of a text by the key with this identifier and seed."""
    return key_of(identifier, seed).sign(index, text)


def born(draw, serial, number):
    """The identifier and the seed of a device's key with this number."""
    return sha256(u8(0x11), draw, serial, u32(number))[:16], sha256(u8(0x10), draw, serial, u32(number))


def officers(noise):
    """The identifier and the seed of the officer's key that is made of noise."""
    return sha256(u8(0x13), noise[:32])[:16], sha256(u8(0x12), noise[:32])


def load(path):
    """Takes the keys that were kept in a file, if it is there."""
    if path.exists():
        MADE.update(pickle.loads(path.read_bytes()))


def keep(path):
    """Keeps the keys in a file."""
    path.write_bytes(pickle.dumps(MADE))
