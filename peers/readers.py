"""What is computed anew of the tests of the lower crates and of the examples."""

import re

import chains
import device
from lms import PrivateKey, sha256, u8, u16, u32
from officer import Officer, body, countersigned_text, order, signed_text
from sources import HEX, line_of, unhex, verifies
from workload import served, workload


def sized(signature):
    """A signature after its length."""
    return u16(len(signature)) + signature


def signatures(source):
    rows = source.rows(rf"key:\s*{HEX},\s*text:\s*{HEX},\s*signature:\s*{HEX}")
    return [unhex(*row) for row in rows]


def lms_signatures(source):
    for key, text, signature in signatures(source):
        verifies(source, f"signature of types {key[3]} and {key[7]}", key, text, signature)


def lms_keys(source):
    for key, owner in source.rows(rf"expect_key\(\s*&rt,\s*{HEX},\s*{HEX}"):
        source.compare("hash of a public key", sha256(*unhex(key)).hex(), owner)


def signer(source):
    for identifier, seed, key in source.rows(rf"\(\s*{HEX},\s*{HEX},\s*{HEX},?\s*\)"):
        source.compare("public key", PrivateKey(*unhex(identifier, seed)).public().hex(), key)
    ((identifier, seed),) = source.rows(rf"IDENTIFIER: &str = {HEX};.*?SEED: &str = {HEX};")
    key = PrivateKey(*unhex(identifier, seed))
    for index, text, wanted in source.rows(rf"\(\s*(\d+),\s*{HEX},\s*{HEX},?\s*\)"):
        found = sha256(key.sign(int(index), *unhex(text))).hex()
        source.compare(f"signature {index} of {len(text) // 2} bytes", found, wanted)


def key_files(source):
    for noise, wanted in source.rows(rf"makes\(\s*&rt,\s*{HEX},\s*{HEX}"):
        source.compare("key file", Officer(*unhex(noise)).key_file().hex(), wanted)


def officers_orders(source):
    """Drafts, the bodies of their orders, and the hashes of the orders once they are signed, and countersigned too."""
    by, beside = (unhex(source.constant(name)) for name in ("SIGNER", "COUNTERSIGNER"))
    hash_ = rf"(?:None|Some\({HEX}\))"
    rows = rf'draft: "([^"]*)",\s*body: {HEX},\s*signed: {hash_},\s*countersigned: {hash_},'
    for draft, wanted, signed, countersigned in source.rows(rows):
        text = body(line_of(draft))
        source.compare("body of a draft", text.hex(), wanted)
        if signed:
            signature = Officer(*by).sign(signed_text(text))
            source.compare("order of a draft", sha256(order(text, signature)).hex(), signed)
        if countersigned:
            by_three = Officer(*beside).sign(countersigned_text(3, text))
            found = sha256(order(text, signature, [(3, by_three)])).hex()
            source.compare("order of a draft, countersigned", found, countersigned)


def workloads(source):
    """The hashes of the image, the script and the noise of each workload that is made with status 0."""
    ((new,),) = source.rows(rf"const NEW: &str = {HEX}")
    rows = source.rows(rf'"generate (\d+) (\d+) image script noise",\s*0,.*?"script",\s*{HEX}.*?"noise",\s*{HEX}')
    for number, rounds, script, noise in rows:
        made = workload(int(number), int(rounds))
        for name, wanted, found in zip(("image", "script", "noise"), (new, script, noise), made, strict=True):
            source.compare(f"hash of the {name}", sha256(found).hex(), wanted)


def stored_run(source):
    """What the stored run of the program prints."""
    command, number, rounds, *_ = (source.root / source.name).with_name("args").read_text().split()
    source.compare(command, served(int(number), int(rounds)), source.text)


def commands_orders(source):
    """Bodies of orders, against drafts that say the same."""
    drafts = {
        "LOAD_OF_ONE": "order load 1\ntarget length 5\ntarget serial 000102030405060708090a0b0c0d0e0f\n"
        "version 2\ntrust countersigned\ncode -",
        "EMERGENCY": f"order emergency 2\ntarget owner 1 {'11' * 32}\ntarget code 3 {'22' * 32}\n"
        "version 4294967295\ntrust always\ncode 00ff",
        "ESTABLISH": f"order establish 3\nowner 0000000900000001{'33' * 16}{'44' * 32}\ntrust never",
        "LOAD_APART": "order load 3\nversion 258\ntrust always never\ncode 616263",
        "ESTABLISH_APART": f"order establish 3\nowner 0000000500000003{'31' * 16}{'32' * 32}\ntrust always never",
        "EMERGENCY_APART": "order emergency 2\ntarget length 7\nversion 1\ntrust countersigned always\ncode -",
    }
    for name, draft in drafts.items():
        ((wanted,),) = source.rows(rf"const {name}: &str = {HEX}")
        source.compare(f"body {name}", body(draft).hex(), wanted)


def records_with_trusts(source):
    """Layers and entries of version 2, and bytes that are no entry, with the offset at which each fails."""
    key = "0000000500000003" + "{0}" * 16 + "{1}" * 32
    keys = {n: bytes.fromhex(key.format(n, n + 1)) for n in (11, 21, 31, 43, 45)}
    reliable = {"owner": keys[11], "code": b"\x13" * 32, "version": 258, "reliable": True}
    loaded = {"owner": keys[21], "code": b"\x23" * 32, "version": 7, "reliable": False}
    owned = dict(device.UNOWNED, owner=keys[31])
    always, never, countersigned = device.ALWAYS, device.NEVER, device.COUNTERSIGNED
    layers = {
        "RELIABLE_LAYER": (reliable, always, always),
        "RELIABLE_LAYER_APART": (reliable, countersigned, always),
        "LOADED_LAYER": (loaded, countersigned, countersigned),
        "LOADED_LAYER_APART": (loaded, always, never),
        "OWNED_LAYER": (owned, countersigned, countersigned),
        "OWNED_LAYER_APART": (owned, never, countersigned),
        "UNOWNED_LAYER": (device.UNOWNED, never, never),
    }
    layers = {name: dict(of, trusts=(one, two)) for name, (of, one, two) in layers.items()}
    spelled = {name: device.Device.spelled_layer(layer, 2) for name, layer in layers.items()}
    birth = u8(16) + b"\x41" * 16 + keys[43] + spelled["RELIABLE_LAYER"] + 2 * spelled["UNOWNED_LAYER"]
    change = u8(17) + u32(5) + u32(4) + u8(device.LOAD) + u8(1) + u8(device.pair({3})) + u8(device.pair({2}))
    change += b"".join(spelled[name] for name in ("RELIABLE_LAYER", "LOADED_LAYER_APART", "OWNED_LAYER"))
    change += device.optional(keys[45])
    for name, bytes_ in (spelled | {"BIRTH": birth, "CHANGE": change}).items():
        source.compare(name, bytes_.hex(), source.constant(name))
    for at, name in source.rows(r"/// No entry, from byte (\d+) on[^\n]*\npub const (\w+)"):
        reader = chains.Reader(bytes.fromhex(source.constant(name)))
        try:
            reader.whole(chains.Reader.entry)
            found = None
        except chains.Unformed as unformed:
            found = unformed.at
        source.compare(name, found, int(at))


def judged_orders(source):
    """The keys of three owners, of types 5 and 4, their orders, and what they signed of them."""
    load = "order load {}\nversion 2\ntrust always\ncode 616263"
    owners = [PrivateKey(bytes([n]) * 16, bytes([n]) * 32, 5, 4) for n in (1, 2, 3)]
    for name, owner in zip(("ONE", "TWO", "THREE"), owners):
        source.compare(f"public key {name}", owner.public().hex(), source.constant(name))
    texts = {
        "LOAD_ONE": body(load.format(1)),
        "LOAD_TWO": body(load.format(2)),
        "LOAD_THREE": body("order load 3\nversion 258\ntrust always never\ncode 616263"),
        "NEW_KEY": body("order newkey 3 epoch"),
        "ESTABLISH_AT_SEVEN": body(f"order establish 2\ntarget length 7\nowner {owners[1].public().hex()}\ntrust always"),
    }
    for name, text in texts.items():
        source.compare(f"body {name}", text.hex(), source.constant(name))
    signed = {
        "LOAD_ONE_BY_ONE": sized(owners[0].sign(0, signed_text(texts["LOAD_ONE"]))),
        "LOAD_ONE_BY_THREE": bytes([1, 3]) + sized(owners[2].sign(1, countersigned_text(3, texts["LOAD_ONE"]))),
        "LOAD_TWO_BY_TWO": sized(owners[1].sign(0, signed_text(texts["LOAD_TWO"]))),
        "LOAD_THREE_BY_THREE": sized(owners[2].sign(2, signed_text(texts["LOAD_THREE"]))),
        "NEW_KEY_BY_THREE": sized(owners[2].sign(0, signed_text(texts["NEW_KEY"]))),
    }
    for name, word in signed.items():
        source.compare(f"signature {name}", word.hex(), source.constant(name))


def pending_images(source):
    """Each row of work that an order has left, and that of a new device, word by word."""
    kinds = ("ENTRY", "entry"), ("RENEWAL", "renewal"), ("NEW_KEY", "add"), ("SUCCESSION", "short"), ("BORN", "born")
    for name, kind in kinds:
        for (text,) in source.rows(rf"const {name}: Left = Left {{(.*?)\n}};"):
            found, wanted = (re.findall(HEX, row) for row in (text, "\n".join(device.row(kind))))
            source.compare(f"work left by {kind}", found, wanted)
            source.seen.update(found)


def replaced_regions(source):
    """The regions of a device in version 1, after one more use of each key, with another secret in each, and both."""
    found = []
    for name in ("", "_USED", "_PUT", "_PUT_USED"):
        owned, _, _ = device.left_to_do("entry", signed=False, version=2 if name else 1)
        for layer in (2, 3) if "_USED" in name else ():
            owned.regions[layer]["keys"][0][1].uses += 1
        if "_PUT" in name:
            pin, _, born = owned.regions[2]["secrets"][0]
            owned.regions[3]["secrets"] = owned.regions[2]["secrets"]
            owned.regions[2]["secrets"] = [(pin, b"5678", born)]
        found += [("TWO" + name, owned.region(2)), ("THREE" + name, owned.region(3))]
    for name, region in found:
        source.compare(f"region {name}", region.hex(), source.constant(name))


def next_root(source):
    """What a new device has in its flash once layer 2 has an owner, and its root."""
    owned = device.Device(signed=False, version=1)
    owned.establish(2)
    ((header, entry),) = source.rows(rf"const NEXT: Next = Next {{\s*header: {HEX},\s*entry: {HEX}")
    source.compare("header", owned.header(owned.slots()).hex(), header)
    source.compare("entry", owned.log[1][0].hex(), entry)
    source.compare("root", owned.root(1, None).hex(), source.constant("NEXT_ROOT"))


def standard(source):
    """The two keys of RFC 8554, Appendix F, test case 2, from their seeds."""
    for tree, chains, identifier, seed, root in source.rows(r"(\d+) (\d+) ([0-9a-f]+) ([0-9a-f]+) ([0-9a-f]+)\n"):
        key = PrivateKey(*unhex(identifier, seed), int(tree), int(chains))
        source.compare(f"root of types {tree} and {chains}", key.public()[24:].hex(), root)
