#!/usr/bin/env python3
"""Brings the names of definitions and lemmas to today's spelling: types in upper camel case, all else in snake case.

Run once, at the top of the repository, over what the toolchain's own script for older repositories left. Names of src/ (functions, types,
fields), exported names, strings, inputs and outputs stay; so do names that the prover makes, as returns-in_ok. It stops where two names would
fall together.
"""
import pathlib
import re
import sys

TYPES = {
    "Division-laws": "DivisionLaws",
    "Explains-typed": "ExplainsTyped",
    "Product-laws": "ProductLaws",
    "Residue-laws": "ResidueLaws",
    "Response-laws": "ResponseLaws",
}

# Definitions of specs/, lemmas of proofs/, and lemmas that stand inside others.
WORDS = """
alike-confused alike-errors all-tried among-at among-wrong apart-clash as-good below-degree bit-of-clock bit-one blank-good blank-kept
bound-is by-clocks carry-below carry-fits carry-taken chooses-exact clash-apart classes-all clock-entry clock-list clocked-carry clocked-high
clocked-is clocked-low clocks-lawful code-19 code-more coefficient-half coefficient-last coefficient-more combination-power combination-xor
combination-zero combined-residue confused-alike confused-by confused-same counts-more counts-none counts-unique degree-19 degree-at
degree-below degree-is degree-none degree-one degree-reach degree-xor degree-zero degrees-xor digit-below digit-is digit-mul-le
digit-mul-xor digit-xor-mul division-carry division-digit division-high division-laws division-low division-more division-none division-of
division-on division-turn division-zero double-division double-xor entry-each equal-confused error-of errors-alike even-divisor even-tried
feedback-some finds-confused finds-equal first-same fits-serves front-coefficient front-half front-right front-split front-wrong
half-is-enough has-degree horner-in horner-step horner-suc irreducible-some is-feedback kept-all layer-number length-decimal marked-byte
moved-degree moved-whole next-digit no-21 no-33554432 no-spaces none-there not-typed odd-none odd-tried of-division of-top one-degree
one-space-more one-there ones-19 onward-none onward-plus order-19 order-31 passed-more passed-other passed-tried picked-past picked-quiet
picked-right picked-whole picked-wrong plus-first plus-next polynomial-below polynomial-more polynomial-none pow-le-add pow-le-of power-first
powers-of product-degree product-laws progress-chosen progress-clash progress-ends progress-none progress-other progress-past quotient-more
quotient-text reach-degree record-at record-none reducible-21 residue-again residue-below residue-digit residue-divides residue-division
residue-is residue-laws residue-more residue-small residue-step residue-xor residue-zero residues-equal response-below response-coefficient
response-is response-laws response-leaves response-more response-none response-of response-of-no-bytes response-of-none response-quiet
response-same rising-far rising-order row-entry-at row-entry-none rows-lawful rows-room same-error same-q same-r serves-fits shift-more
size-one small-multiple some-quotient square-7 taken-less taken-same times-assoc times-big times-comm times-degree times-digit times-digit-r
times-double times-double-r times-more-r times-odd times-one times-one-r times-shift times-step times-xor-l times-xor-r times-zero-r too-low
typed-more wrong-error wrong-past wrong-response x-times xor-cancel xor-digit xor-eq-zero xor-left-comm xor-move xor-swap zero-byte
zero-coefficient
"""

# A lemma that would have its function's name.
LEMMAS = {"degree-of": "degree_of_lem"}

NAMES = TYPES | LEMMAS | {word: word.replace("-", "_") for word in WORDS.split()}

# antt ends a name at a space and at these.
ENDS = r"\s(){}.,;:`"
NAME = re.compile(rf"(?<![^{ENDS}])({'|'.join(sorted(map(re.escape, NAMES), key=len, reverse=True))})(?![^{ENDS}])")
WORD = re.compile(rf"[^{ENDS}]+")


def texts():
    for folder in ("specs", "proofs", "src"):
        for path in sorted(pathlib.Path("crates").glob(f"*/{folder}/**/*")):
            if path.suffix in (".antt", ".rt"):
                yield path, path.read_text()


def main():
    files = list(texts())
    # A name of src/ that a new spelling meets is another thing, in a module of its own: only specs/ and proofs/ can clash.
    used = {word for path, text in files if path.suffix == ".antt" for word in WORD.findall(text)}
    clashes = sorted(new for old, new in NAMES.items() if old in used and new in used)
    if clashes:
        sys.exit(f"respell: these names are taken: {' '.join(clashes)}")
    changed = 0
    for path, text in files:
        new = NAME.sub(lambda found: NAMES[found[1]], text)
        if new != text:
            path.write_text(new)
            changed += 1
    print(f"respell: {changed} files")


if __name__ == "__main__":
    main()
