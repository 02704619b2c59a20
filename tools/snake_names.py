#!/usr/bin/env python3
"""Spells the repository's own definitions and lemmas in snake case, in every crate, README.md and docs/.

usage: python3 tools/snake_names.py     at the top of the repository, once, after the kit's port.py

It stops where specs/ has none of the old names: a second run would turn step names of proofs that look like them.

Whole names alone are replaced. Functions of src/, strings, inputs and outputs keep their names: no name here is one of Rust's.
"""

import glob
import os
import re

# a dash becomes an underscore in each of these; the first five are parameters
PLAIN = """
from-l from-r i-first past-l with-last
above-left above-right absent-is accept-same accept-same-sym accept-untold add-above add-lt add-other address-inj address-lt agree-agreed
agree-equivalence agreed-agree agreed-equivalence agreed-numbering alike-agree alike-in alike-numbered alike-untold all-at all-below all-bools
all-count all-empty all-zeros always-served and-iff and-out and-twice answer-is answered-by answers-reached any-in any-is apart-accepts apart-code
apart-states as-two ask-old at-a-leaf at-an-inner at-bool at-final at-inner-cell at-leaf-cell at-number at-or-before at-or-below-root at-root
at-states at-unused at-used atom-accepts atom-automaton atom-count atom-examples atom-lawful atom-not-built atom-passed atom-placed atom-refusal
atom-shape atom-states back-label back-marks behind-equal behind-inj behind-same below-children below-counts below-high below-low below-meaning
below-never below-related below-same below-sided below-trans bit-apart bit-here bit-low bit-none bit-one bit-put-other bit-put-same bit-same bit-small
bit-sum bit-top bit-zero blocks-length body-length both-accepts both-passed by-rack by-slot by-α by-β byte-of-none byte-of-states byte-one-if
bytes-automaton call-atom call-both call-drop call-either call-judge call-list call-not call-some call-take can-be can-of canonical-slot cell-lt
cells-alike cells-lent chain-iff check-free check-full check-lent check-open check-slot child-below class-at class-in code-fill code-into
codes-are-states codes-few codes-lent codes-lt codes-pos codes-told comes-from counted-all counted-more counting-append counts-at decimal-short
digits-inj digits-order discovered-indexed done-iff done-late done-ones done-place drop-passed due-by due-is due-short either-accepts either-digit
either-iff end-place eqb-iff every-accepts every-automaton every-code every-lawful every-states exists-meaning explored-taken few-codes fields-append
fields-short fields-stop fill-shaped filled-by final-byte final-is final-line final-out final-short finals-coarse find-is first-0 first-1 first-2
first-3 first-fit first-ge first-in first-is first-kept first-listed first-refusal first-shaped first-tree first-up fit-map fit-over fits-facts
fitted-is fitted-lawful found-reached four-short free-chain front-more front-slot front-zeros full-chain full-too-many gap-code gap-shaped gathered-in
gathered-more gathered-of gathering-all gathering-more gathering-none given-in given-of grown-length guard-final guard-inner guard-leaf guard-twice
guarded-lawful handed-on has-leaf has-rule head-line head-short heads-shorter held-accepts held-long held-right holds-below holds-check holds-lab
holds-left holds-sing if-in if-out image-accepts image-answers image-bytes image-made image-states image-table image-width in-A in-B in-E in-first
in-front in-second in-third index-table indexed-step inner-2 inner-3 inner-address inner-addressed inner-asked inner-byte inner-byte-at inner-byte-is
inner-cell inner-cells inner-cells-in inner-count inner-down inner-fit inner-heads inner-in inner-is inner-joined inner-line inner-lines inner-numbers
inner-order inner-place inner-rows inner-rows-le inner-short inner-step inner-told inners-short inners-text into-shaped is-done is-layer is-rule
is-taken j-low joined-append judge-passed judge-writes judged-by judged-done judged-right kept-indexed kept-lt kernel-of known-early lab-0 lab-accepts
lab-automaton lab-bad lab-lawful lab-meaning lab-states label-again label-fits label-in label-lt last-low late-at leaf-0 leaf-1 leaf-2 leaf-address
leaf-addressed leaf-asked leaf-before leaf-byte leaf-cell leaf-cells leaf-cells-in leaf-code leaf-count leaf-counts leaf-fit leaf-heads leaf-high
leaf-in leaf-index leaf-is leaf-line leaf-low leaf-numbers leaf-order leaf-out leaf-pushed leaf-rows leaf-short leaf-standing leaf-step leaf-told
leaf-undone least-member left-code left-counts left-meaning left-never left-of left-part left-related left-same left-sided lefts-short lefts-text
length-listing lent-enough limits-in limits-kept line-L line-short lines-I list-logged list-passed list-writes listed-done listed-rule listing-ends
listing-then looked-up looked-up-explored low-high low-lt machine-right made-both made-either made-rack marks-few marks-high marks-i marks-in marks-is
marks-low marks-short marks-text meets-below meets-left meets-right member-fits member-lt merged-met merged-table merged-table-of met-1 met-first
met-here met-is met-kept met-over met-reached met-α middle-digit more-is need-pos neg-iff neither-due new-step next-apart next-coarse next-in
next-ring next-same no-class-lost no-leaf no-marks no-refusal no-right no-rule-given no-track node-place node-refusal none-asked none-at none-due
none-numbered not-accepts not-built not-due not-final not-lab not-lawful not-layer not-leaf not-meaning not-passed not-sub number-back number-done
number-inj numbered-merged numbering-at numbering-same of-found of-good of-states one-if one-if-eqb one-if-fits one-if-inj one-if-le one-if-lt
one-or-four one-or-two one-root one-rule one-shape one-source-chain one-tree ones-accepts ones-automaton ones-lawful ones-states opened-le opened-pos
or-else-all or-false or-iff or-none or-odd or-with outcome-from over-final over-more over-short own-explored own-guarded own-merged own-slot own-table
own-table-of pair-accepts pair-below pair-counts pair-down pair-few pair-final pair-ge pair-inner pair-lawful pair-layer pair-meaning
pair-meaning-lawful pair-place-inj pair-refusal pair-up pair-written pairs-placed parity-automaton parity-lawful parts-length parts-listing parts-tree
past-finals past-inner past-leaf past-tree pasted-front pasted-full pasted-more pasted-none pigeon-onto place-high place-inj place-low place-lt-end
place-lt-ring placed-check places-set plain-decimal plain-split present-is product-made product-meaning put-bit put-bit-lt put-label put-marks
put-nodes put-shaped put-slot rack-fits rack-limits rack-made rack-of reached-found reached-lt read-listing read-tree rep-alike rest-refusal
right-code right-counts right-in right-meaning right-never right-part right-related right-same right-sided right-size right-step root-label root-marks
root-part row-address-lt row-again row-code row-inner row-marks row-set rule-of rules-after rules-same run-answered run-refused same-accepts
same-closed same-equal same-never same-own same-sym same-table same-table-of same-trans second-0 second-1 second-listed second-shaped second-tree
set-of shape-111 shape-212 shape-made shapes-same short-done sing-accepts sing-automaton sing-bytes sing-code sing-inner sing-lawful sing-leaf
sing-meaning sing-states sing-table sing-text size-pos slot-accepts slot-automaton slot-bytes slot-ends slot-few slot-first slot-in slot-itself
slot-lawful slot-listable slot-machine slot-passed slot-reads slot-right slot-room slot-states slot-table slot-table-of slot-taken slot-tells
slot-text slots-equal slots-paired slots-told sofar-at sofar-next sofar-turn some-accepts some-code-lt some-count some-due some-final some-inner
some-inner-step some-lawful some-layer some-leaf some-leaf-step some-meaning some-meaning-lawful some-passed some-refusal some-set some-state
sooner-in source-at source-ge source-index source-lt spelled-grown spelled-short spelled-then spots-up square-lt square-pos st-counts stable-alike
stack-need standings-automaton state-at state-in state-is state-lt state-of state-of-at states-agree states-few states-le states-of states-pos step-at
step-up store-after sub-accepts sub-automaton sub-bad sub-count sub-enough sub-fits sub-lawful sub-meaning sub-other sub-states table-accepts
table-again table-automaton table-code table-lawful table-meaning table-right table-small table-states table-text take-passed taken-length
takes-fields takes-from takes-is takes-line takes-lists takes-map takes-over takes-then tally-lt tally-one tally-some tells-line tells-map tells-over
test-done test-none test-wait text-canonical text-iff text-short text-tells texts-accept texts-told three-digits to-left to-right told-final told-left
told-not-alike told-right told-wait too-many-count too-many-found too-many-lt too-many-new too-many-states too-many-upto total-pigeon track-passed
track-refused tracks-fit tree-at tree-held turn-parts turn-refusal turn-too-many two-are two-left two-of two-right two-root-left two-root-right
two-rules two-sides two-sources-chain u-in u-is un-left un-right under-length undone-before undone-lt untold-alike untold-same unused-final
unused-inner v-in v-is value-left value-right values-above values-fit values-push verdict-logged within-bounds worst-lt writes-table writes-zeros
written-here written-length written-other written-there wrote-slot zero-iff zero-met zeroed-kept
""".split()

# these would fall together with a word of the library, and with the function whose contract the lemma proves
OTHER = {"bit-or": "bit_of_or", "table-examples": "table_examples_lem"}

NAMES = {n: n.replace("-", "_") for n in PLAIN} | OTHER
# what a name is made of in a proof file; a dash alone is no name
TOKEN = re.compile(r"[^\s(){};,.:\"@`|=\[\]]+")
STRING = re.compile(r'"(?:\\.|[^"\\])*"')


def turn(text):
    return TOKEN.sub(lambda m: NAMES.get(m[0], m[0]), text)


def turn_source(text):
    out, at = [], 0
    for m in STRING.finditer(text):
        out += [turn(text[at : m.start()]), m[0]]
        at = m.end()
    return "".join(out) + turn(text[at:])


def is_turned():
    for p in glob.glob("crates/*/specs/*.antt"):
        with open(p, encoding="utf-8") as f:
            if any(m[0] in NAMES for m in TOKEN.finditer(f.read())):
                return False
    return True


def main():
    if is_turned():
        print("nothing to turn")
        return
    paths = [p for end in ("antt", "rt") for p in glob.glob(f"crates/**/*.{end}", recursive=True)]
    paths += ["README.md"] + glob.glob("docs/*.md")
    for p in sorted(paths):
        if "/out/" in p or p == "docs/PORT.md" or not os.path.isfile(p):
            continue
        with open(p, encoding="utf-8") as f:
            old = f.read()
        new = turn_source(old) if p.endswith(".rt") else turn(old)
        if new != old:
            with open(p, "w", encoding="utf-8") as f:
                f.write(new)


main()
