#!/usr/bin/env python3
"""Computes the outside values of the repository's tests and examples anew, and compares them.

    compare.py [ROOT]              prints a line for each source and each value that differs, then `N agree, M differ`
    compare.py --signatures [ROOT] prints the signatures of other programs as lines KEY TEXT SIGNATURE (`-`: no text)
    compare.py --chain [ROOT]      prints those of the entries and the statement of the first chain of the tests

ROOT is the top of the repository, the folder above this one if it is not given. The values are read out of the
sources themselves, so that none stands twice. A source of which nothing is read counts as one that differs. Words of 32
bytes and more in the tests that no reader here has looked at are counted on a line of their own.
"""

import pathlib
import sys

import app_readers
import call_readers
import chain_readers
import examples
import order_readers
import party_readers
import pieces
import readers
import top_readers
from sources import BIRTHS, Source

HERE = pathlib.Path(__file__).resolve().parent

READERS = {
    "peers/rfc8554.txt": readers.standard,
    "crates/mb_lms/src/tests.rt": readers.lms_keys,
    "crates/mb_lms/src/tests/widths.rt": readers.lms_signatures,
    "crates/mb_lms/src/tests/heights.rt": readers.lms_signatures,
    "crates/mb_test_parties/src/tests/applications/runs.rt": app_readers.app_runs,
    "crates/mb_test_parties/src/tests/applications/texts.rt": app_readers.app_texts,
    "crates/mb_test_parties/src/tests/applications/traces.rt": app_readers.app_traces,
    "crates/mb_test_parties/src/tests/policies/judgements.rt": party_readers.judgements,
    "crates/mb_test_parties/src/tests/policies/large.rt": party_readers.large_policies,
    "crates/mb_test_parties/src/tests/registers/runs.rt": party_readers.register_answers,
    "crates/mb_test_parties/src/tests/registers/entries.rt": party_readers.unruled_birth,
    "crates/mb_test_bytes/src/tests/signing.rt": readers.signer,
    "crates/mb_test_bytes/src/tests/orders.rt": readers.commands_orders,
    "crates/mb_test_bytes/src/tests/pieces.rt": pieces.orders_in_pieces,
    "crates/mb_test_bytes/src/tests/trusts.rt": readers.records_with_trusts,
    "crates/mb_test_texts/src/tests/keys.rt": readers.key_files,
    "crates/mb_test_texts/src/tests/orders.rt": readers.officers_orders,
    "crates/mb_test_cuts/src/tests/images.rt": readers.pending_images,
    "crates/mb_test_cuts/src/tests/regions.rt": readers.replaced_regions,
    "crates/mb_test_cuts/src/tests/roots.rt": readers.next_root,
    "crates/mb_test_rules/src/tests/signed.rt": readers.judged_orders,
    "crates/mb_test_rules/src/tests/versions.rt": chain_readers.chain_versions,
    BIRTHS: top_readers.births,
    chain_readers.LIFE: chain_readers.shared_life,
    chain_readers.CHAINS: chain_readers.chains_tests,
    "crates/mb_test_commands/src/tests/policies.rt": chain_readers.policies_tests,
    "crates/mb_test_lives/src/tests/trusts.rt": chain_readers.chains_tests,
    "crates/mb_test_lives/src/tests/calls.rt": call_readers.calls,
    "crates/mb_test_rules/src/tests/statements.rt": call_readers.statements_in_chains,
    "crates/mb_test_bytes/src/tests/statements.rt": call_readers.wrong_statements,
    chain_readers.FLEET: chain_readers.fleet_tests,
    "crates/mb_test_commands/src/tests/enrolments.rt": chain_readers.enrolments_tests,
    "crates/mb_test_commands/src/tests/trials.rt": app_readers.app_trials,
    "crates/mb_test_commands/src/tests/shown_codes.rt": app_readers.app_trials,
    "crates/mb_test_commands/src/tests/short_files.rt": chain_readers.short_inputs,
    "crates/mb_test_commands/src/tests/devices_shown.rt": chain_readers.chains_tests,
    "crates/mb_test_commands/src/tests/limits.rt": chain_readers.last_entries,
    "crates/mb_test_commands/src/tests/devices.rt": top_readers.plays,
    "crates/mb_test_commands/src/tests/keys.rt": top_readers.plays,
    "crates/mb_test_commands/src/tests/sign.rt": top_readers.signed_orders,
    "crates/mb_test_commands/src/tests/shown.rt": order_readers.answered,
    "crates/mb_test_lives/src/tests/workloads.rt": readers.workloads,
    "crates/miniboot/stdout": readers.stored_run,
    "examples/device-life/expected.txt": examples.device_life,
    "examples/rehearsal/expected.txt": examples.rehearsal,
    "examples/outbound/expected.txt": examples.outbound,
    "examples/fleet/expected.txt": examples.fleet_of_devices,
    "examples/operator/expected.txt": examples.operator,
    "examples/policy/expected.txt": examples.policy,
    "examples/orders/expected.txt": examples.orders,
    "examples/endorsement/expected.txt": examples.endorsement,
    "examples/calls/expected.txt": examples.calls,
}


def read(root, name):
    """The source after its reader, which has to find something."""
    source = Source(root, name)
    READERS[name](source)
    if source.agree + source.differ == 0:
        source.compare("values that are read", 0, "some")
    return source


def unseen(root, sources):
    """The tests with words that no reader has looked at, and how many."""
    for path in sorted(root.glob("crates/*/src/**/*tests*/**/*.rt")) + sorted(root.glob("crates/*/src/**/tests.rt")):
        name = str(path.relative_to(root))
        words = sources.get(name, Source(root, name)).unseen()
        if words:
            yield f"{name}: {len(words)} words that nothing here has looked at"


def signatures(root):
    """The signatures of other programs that stand in the tests."""
    for name in (name for name, reader in READERS.items() if reader is readers.lms_signatures):
        yield from readers.signatures(Source(root, name))


def main(words):
    asked = words[0] if words[:1] in (["--signatures"], ["--chain"]) else None
    root = pathlib.Path(words[-1]) if len(words) > (asked is not None) else HERE.parent
    if asked:
        chain = chain_readers.sample_signatures(Source(root, chain_readers.CHAINS))
        for row in signatures(root) if asked == "--signatures" else chain:
            print(*(part.hex() or "-" for part in row))
        return 0
    sources = {name: read(root, name) for name in READERS if (root / name).exists()}
    for source in sources.values():
        print(f"{source.name}: {source.agree} agree, {source.differ} differ")
    for line in unseen(root, sources):
        print(line)
    agree, differ = (sum(getattr(source, of) for source in sources.values()) for of in ("agree", "differ"))
    print(f"{agree} agree, {differ} differ")
    return 1 if differ else 0


if __name__ == "__main__":
    sys.exit(main(sys.argv[1:]))
