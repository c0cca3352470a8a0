#!/usr/bin/env python3
"""Respells the names of definitions and lemmas: words in snake case, a dash only between two names.

usage: tools/respell.py     at the top of the repository, once, after the toolchain's own port script

Goes by whole names, over crates/ (sources, specs, proofs, edits), README.md and docs/. Where two names would fall together it
prints a line that begins with look:, and goes on.
"""

import pathlib
import re
import sys

# published names that the toolchain's script took for words of its library
GARBLED = {"ParamKind": "PK", "ResultKind": "RK"}

# words of our own in camel case, wherever they stand in a name
CAMEL = {
    "bitXor": "bit_xor", "bitsFrom": "bits_from", "blockLength": "block_length", "doubleNibbles": "double_nibbles",
    "engineAnswer": "engine_answer", "engineFaultText": "engine_fault_text", "fillNumber": "fill_number",
    "fillNumberOf": "fill_number_of", "getD": "get_or", "intoLeft": "into_left", "intoRight": "into_right",
    "inverseRound": "inverse_round", "inverseRounds": "inverse_rounds", "keyAnswer": "key_answer",
    "keyFaultText": "key_fault_text", "keyLength": "key_length", "keyStep": "key_step", "keyStepFrom": "key_step_from",
    "laneCount": "lane_count", "onNibbles": "on_nibbles", "plainD": "plain_D", "plainE": "plain_E",
    "roundCount": "round_count", "rowKey": "row_key", "uBlock128": "ublock128", "uBlock256": "ublock256",
}

# names whose last part is a word and no name: joined by _
WORDS = """
    PK-long PK-within PL-inverse PR-inverse S-inverse S-byte S-of-inverse RK-1 PKs-permute uBlock128-128 uBlock128-256 uBlock256-256
    after-row all-at be4-bytes before-row bitXor-twice block-fits bytes-out cipher-permutes constants-from-shift-register
    dec-block dec-enc dec-long decipher-agree double-byte each-of-four eight-lanes enc-block enc-dec enc-long encipher-agree
    examples-hold few-rounds filled-keys filled-means filled-number fits-row four-long front-block halves-front held-by-key held-v
    inverse-byte inverse-of-S inverseRound-block inverseRound-from inverseRound-long inverseRound-of inverseRounds-agree
    inverseRounds-block inverseRounds-long invertible-of is-v joined-long key-is key-of-row key-step-long layout-by-length
    layouts-invertible length-of-block length-out length-picked length-pos length-small linear-bytes linear-long long-front
    long-k2 long-k3 long-step looked-up mix-of mixed-beside mixed-bytes mixed-long mixing-of narrow-permuted nibbles-high
    nibbles-low nibbles-small one-lane-shape one-length padded-from padded-front padded-whole paired-bytes permute-back
    permuted-back permuted-bytes permuted-long picked-at ran-loaded ran-none ran-one register-block register-long right-back
    rotated-is rotated-parts round-back round-block round-forth round-from round-key-bytes round-long round-of round-split
    round-undone rounds-agree rounds-back rounds-block rounds-forth rounds-long row-key-bytes same-equal split-bytes split-long
    step-beside step-bytes step-long substituted-long substitution-undone through-rows twice-suc unlinear-bytes unlinear-long
    unmix-of unmixed-beside unmixed-bytes unmixed-long upto-more variants-permute wide-permuted word-block word-by-shifts
    word-of-bytes word-rotated xor-byte xor-twice zero-plus
""".split()

# names that the toolchain's script joined by _, since its library has a word of that name: as their like
LIKE = {"bytes_take": "bytes-take", "bytes_drop": "bytes-drop"}

NAME = re.compile(r"[A-Za-z][\w'+-]*")


def respelled(name):
    if name in LIKE:
        return LIKE[name]
    parts = [GARBLED.get(p, CAMEL.get(p, p)) for p in name.split("-")]
    plain = "-".join({v: k for k, v in GARBLED.items()}.get(p, p) for p in name.split("-"))
    word = name in WORDS or "-".join(GARBLED.get(p, p) for p in name.split("-")) in WORDS or plain in WORDS
    return ("_" if word else "-").join(parts)


def files(top):
    for pattern in ("crates/*/src/**/*.rt", "crates/*/specs/**/*.antt", "crates/*/proofs/**/*.antt", "crates/*/must-fail/*.edit", "README.md", "docs/*.md"):
        for path in sorted(top.glob(pattern)):
            if "PORT" not in path.name:
                yield path


def main():
    top = pathlib.Path(__file__).resolve().parent.parent
    texts = {p: p.read_text(encoding="utf-8") for p in files(top)}
    used = {n for t in texts.values() for n in NAME.findall(t)}
    turned = {n: respelled(n) for n in used if respelled(n) != n}
    for old, new in sorted(turned.items()):
        others = [o for o, v in turned.items() if v == new and o != old]
        if others or (new in used and old not in GARBLED):
            print(f"look: {old} becomes {new}, which is there already or which {others} becomes too")
    if "--list" in sys.argv[1:]:
        for old, new in sorted(turned.items()):
            print(f"{old} -> {new}")
        return 0
    for path, text in texts.items():
        new = NAME.sub(lambda m: turned.get(m.group(), m.group()), text)
        if new != text:
            path.write_text(new, encoding="utf-8")
    return 0


if __name__ == "__main__":
    sys.exit(main())
