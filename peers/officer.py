"""Officers' keys, drafts and orders in bytes, written from the README and RFC 8554, with nothing of the program."""

from lms import PrivateKey, sha256, u8, u16, u32

KINDS = {"establish": 1, "surrender": 2, "load": 3, "emergency": 4, "newkey": 5}
TRUSTS = {"always": 0, "never": 1, "countersigned": 2}
KEY_KINDS = {"epoch": 0, "configuration": 1}
# An order that gives two trusts that differ has the number of its kind plus this.
TWO_TRUSTS = 16


class Officer:
    """An officer whose key is made of 32 bytes of noise."""

    def __init__(self, noise):
        self.identifier = sha256(u8(0x13), noise[:32])[:16]
        self.seed = sha256(u8(0x12), noise[:32])
        self.key = PrivateKey(self.identifier, self.seed)
        self.next = 0

    def key_file(self):
        return b"MBK1" + self.identifier + self.seed + u32(self.next)

    def public(self):
        return self.key.public()

    def owner(self):
        """The hash by which the officer is known."""
        return sha256(self.public())

    def sign(self, text):
        """The signature of the text by the next index."""
        self.next += 1
        return self.key.sign(self.next - 1, text)


def unhex(word):
    return b"" if word == "-" else bytes.fromhex(word)


def target(kind, *words):
    if kind == "serial":
        return u8(1) + unhex(words[0])
    if kind == "length":
        return u8(2) + u32(int(words[0]))
    return u8({"owner": 3, "code": 4}[kind]) + u8(int(words[0])) + unhex(words[1])


def trusts_in(words):
    """The trusts of a draft's words after `trust`: for layer 1 and for layer 2, or one for both."""
    return TRUSTS[words[0]], TRUSTS[words[-1]]


def body(draft):
    """The part of a draft's order that is signed."""
    first, *rest = (line.split(" ") for line in draft.splitlines())
    kind = KINDS[first[1]]
    targets = [target(*line[1:]) for line in rest if line[0] == "target"]
    fields = {line[0]: line[1:] for line in rest if line[0] != "target"}
    given = trusts_in(fields["trust"]) if "trust" in fields else ()
    differ = len(set(given)) > 1
    trusts = b"".join(map(u8, given if differ else given[:1]))
    text = u8(kind + TWO_TRUSTS * differ) + u8(int(first[2])) + u8(len(targets)) + b"".join(targets)
    if kind == 1:
        text += unhex(*fields["owner"]) + trusts
    elif kind in (3, 4):
        code = unhex(*fields["code"])
        text += u32(int(*fields["version"])) + trusts + u32(len(code)) + code
    elif kind == 5:
        text += u8(KEY_KINDS[first[3]])
    return text


def signed_text(text):
    """What the owner in charge signs of an order's body."""
    return u8(1) + text


def countersigned_text(layer, text):
    """What the owner of a layer countersigns of an order's body."""
    return u8(2) + u8(layer) + text


def order(text, signature, countersignatures=()):
    """The order in bytes; each countersignature is a layer and a signature."""
    end = b"".join(u8(layer) + u16(len(by)) + by for layer, by in countersignatures)
    return text + u16(len(signature)) + signature + u8(len(countersignatures)) + end


def order_line(text):
    return "command " + text.hex() + "\n"
