"""Bytes and texts that are spoilt a little, so that they stay near what is valid."""

import chains


class Tracer(chains.Reader):
    """A reader that keeps where each field began and ended."""

    def __init__(self, bytes_, at=0):
        super().__init__(bytes_, at)
        self.fields = []

    def take(self, count):
        at = self.at
        taken = super().take(count)
        if count:
            self.fields.append((at, self.at))
        return taken


def fields_of(bytes_, read):
    """The fields of a record, up to the first that is wrong."""
    tracer = Tracer(bytes_)
    try:
        read(tracer)
    except chains.Unformed:
        pass
    return tracer.fields


def turned(rng, bytes_):
    """Flips one bit."""
    at = rng.randrange(len(bytes_))
    return bytes_[:at] + bytes([bytes_[at] ^ 1 << rng.randrange(8)]) + bytes_[at + 1 :]


def number_near(rng, field):
    """A number of a field's length: one more or less, a limit, or another."""
    number, most = int.from_bytes(field, "big"), 256 ** len(field) - 1
    near = number + 1, number - 1, 0, 1, 2, 3, 4, most, number + 16, number ^ 1 << rng.randrange(8 * len(field))
    return (rng.choice(near) % (most + 1)).to_bytes(len(field), "big")


def changed(rng, field):
    """Another value of a field, of the same length."""
    if len(field) <= 4:
        return number_near(rng, field)
    return rng.choice((turned(rng, field), turned(rng, field), bytes(len(field)), rng.randbytes(len(field))))


def spoilt_field(rng, bytes_, fields):
    """One field of a record is changed, cut, repeated, or exchanged for another; mostly it is changed."""
    if not fields:
        return rng.randbytes(rng.randrange(4))
    at, end = rng.choice(fields)
    field, how = bytes_[at:end], rng.random()
    if how < 0.7:
        return bytes_[:at] + changed(rng, field) + bytes_[end:]
    if how < 0.76:
        return bytes_[:at] + bytes_[end:]
    if how < 0.82:
        return bytes_[:end] + field + bytes_[end:]
    if how < 0.88:
        return bytes_[: rng.choice((at, end, max(at, end - 1)))]
    if how < 0.94:
        other, its_end = rng.choice(fields)
        return bytes_[:at] + bytes_[other:its_end] + bytes_[end:]
    return bytes_[:end] + bytes([rng.randrange(256)]) + bytes_[end:]


def spoilt_bytes(rng, bytes_):
    """Bytes with a bit flipped, the end cut off, a byte appended, or a piece repeated."""
    if not bytes_:
        return bytes([rng.randrange(256)])
    how, at = rng.randrange(6), rng.randrange(len(bytes_))
    if how < 2:
        return turned(rng, bytes_)
    if how == 2:
        return bytes_[:at]
    if how == 3:
        return bytes_[:-1]
    if how == 4:
        return bytes_ + bytes([rng.randrange(256)])
    return bytes_[:at] + bytes_[at : at + rng.randrange(1, 40)] + bytes_[at:]


def spoilt_record(rng, bytes_, read):
    """A record that is spoilt in a field, or in its bytes, once or twice."""
    for _ in range(1 if rng.random() < 0.85 else 2):
        if rng.random() < 0.85:
            bytes_ = spoilt_field(rng, bytes_, fields_of(bytes_, read))
        else:
            bytes_ = spoilt_bytes(rng, bytes_)
    return bytes_


# ---- texts

NUMBERS = b"0", b"1", b"2", b"3", b"4", b"01", b"00", b"-1", b"+1", b"4294967295", b"4294967296", b"%d" % 2**64
WORDS = (
    *(b"boot", b"off", b"tamper", b"status", b"go", b"cut", b"command", b"put", b"get", b"drop", b"sign", b"call", b"keep"),
    *(b"secret", b"called", b"input", b"answer"),
    *(b"fill", b"order", b"target", b"owner", b"trust", b"version", b"code", b"always", b"never", b"countersigned"),
    *(b"establish", b"surrender", b"load", b"emergency", b"newkey", b"epoch", b"configuration", b"serial", b"length"),
    *(b"-", b"--", b"", b"#", b"0", b"f", b"ff", b"FF", b"0g", b"\xff", b"\r", b"\t", b"\0", b"100000", b"100001"),
    *(b"1048576", b"1048577", b"ab" * 16, b"ab" * 17, b"ab" * 32, b"ab" * 128, b"ab" * 129, b"x" * 32, b"x" * 33),
)


def spoilt_word(rng, word):
    """A word that is another one, or is a little different."""
    how = rng.randrange(9)
    if how == 0:
        return rng.choice(WORDS)
    if how == 1 and word.isdigit():
        return rng.choice((rng.choice(NUMBERS), str(int(word) + rng.choice((1, -1))).encode(), b"0" + word))
    if how == 1:
        return rng.choice(NUMBERS)
    if how == 2:
        return word.upper() if rng.random() < 0.5 else word.title()
    if how == 3:
        return word[:-1]
    if how == 4:
        return word + rng.choice((b"0", b"a", b"-", b"\r", b"00", b"x", b"\x7f", b"~", b"!"))
    if how == 5:
        return word + word
    if how == 6:
        return word[1:]
    return turned(rng, word) if word else b"x"


def spoilt_line(rng, line):
    """A line with one word changed, repeated, left out or moved, or with one space more."""
    words, how = line.split(b" "), rng.randrange(12)
    at = rng.randrange(len(words))
    if how < 7:
        words[at] = spoilt_word(rng, words[at])
    elif how == 7:
        words.insert(at, words[at])
    elif how == 8:
        words.pop(at)
    elif how == 9:
        words.insert(at, b"")
    elif how == 10:
        other = rng.randrange(len(words))
        words[at], words[other] = words[other], words[at]
    else:
        words.append(rng.choice(WORDS))
    return b" ".join(words)


def spoilt_text(rng, text):
    """A text with one line changed, repeated, left out, moved or cut, or with another end."""
    lines, how = text.split(b"\n"), rng.randrange(16)
    at = rng.randrange(len(lines))
    if how < 8:
        lines[at] = spoilt_line(rng, lines[at])
    elif how == 8:
        lines.insert(at, lines[at])
    elif how == 9:
        lines.pop(at)
    elif how == 10:
        lines.insert(at, rng.choice((b"", b"# a remark", b"#", b" ", b"\r", b" #", b"boot ")))
    elif how == 11:
        other = rng.randrange(len(lines))
        lines[at], lines[other] = lines[other], lines[at]
    elif how == 12:
        return text[: rng.randrange(len(text) + 1)]
    elif how == 13:
        return text.rstrip(b"\n")
    elif how == 14:
        return text + rng.choice((b"\n", b"x", b"boot", b"\0", b"\r\n"))
    else:
        return spoilt_bytes(rng, text)
    return b"\n".join(lines)


def cased(rng, text):
    """Hexadecimal digits of the other case, here and there."""
    return bytes(text[at : at + 1].upper()[0] if rng.random() < 0.3 else text[at] for at in range(len(text)))
