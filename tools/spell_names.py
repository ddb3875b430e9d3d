#!/usr/bin/env python3
"""Respells the repository's own definitions, lemmas and fields: run once, at the top, after the toolchain's port script.

A dash becomes an underscore, and in a name that begins with a capital each part gets one: letters-right is letters_right, and Letters-right is
LettersRight. Names that the check makes (steps and goals) are not in the table, and neither are functions of src/, strings, inputs and outputs.
A name after a dot is respelled too, if it is in the table: two that the check makes, `gone-is` and `come-is` of a branch, are to be put back by hand.
"""
import glob
import re

NAMES = """
Ask-says Ask-truly Asked-well Beside-says Bound-reached Brought-together Brought-together-at Brought-together-parity Codes-differ Differences-do
Due-beside Due-comes Due-goes Explains-at Fits-place Letters-amiss Letters-right Lists-alike Monic-agreement Never-nothing One-explanation
One-explanation-at One-explanation-parity Order-free Points-apart Read-says Right-at Root-bound Same-letter Same-letter-parity Same-members
Same-values-at Says-more Some-letters-alike Sound-beside These-say Together-says Told-by Too-many True-difference-at True-difference-explains
Undo-inverse Values-multiply Zero-at-members above-cleared above-one add-cancel after-append after-blanks after-least after-spaces after-spaces-ends
agrees-at-point alike-cleared alike-front alike-scaled alike-solid alike-swapped all-below all-below-more all-from-below all-in-by all-in-ends
all-in-first all-in-has all-in-more all-in-stops all-multiples all-tried alone-found among-either among-from-has among-left among-multiples
among-others among-place among-right among-take among-upto answer-text answered-by answers-explain answers-true apart-mirror as-multiple asked-text
at-or-before at-pivot at-points bare-at bare-by bare-right bare-right-at before-all before-none before-pass before-row before-take before-zero
beginning-letter begins-word below-append below-cleared below-from-all below-from-has below-multiples below-off below-others below-place below-push
below-tail below-upto below-weaker blank-holds blank-less blank-more blank-pivot both-written bound-reached brought-below brought-has brought-rising
brought-there brought-together brought-together-at brought-together-parity built-all built-length built-more built-none came-after came-at came-below
came-by came-done came-entry came-few came-filled came-letter came-next came-row came-values cancel-by cancel-factor candidate-too-many card-list
cell-read changed-less changed-more changed-none changed-times cleared-none cleared-turn climbed-somewhere climbed-true climbing-end climbing-more
climbing-none climbing-read code-first codes-differ come-below come-count come-covers come-decides come-is come-low come-not come-of come-off come-out
come-passed come-rises come-rising come-room come-root come-roots come-size come-small comes-not comes-short comes-there coming-by coming-stop
common-has common-rising common-sym count-is count-read counted-more counts-decide covers-itself covers-moved covers-none covers-reduced
cross-at-points cross-members cut-end cut-through decimal-word deed-text desk-of desk-size differ-at-equal differ-at-greater differ-at-left-end
differ-at-less differ-at-right-end differ-itself differ-most differ-sym differ-zero difference-at-point difference-fits difference-laws
difference-text differences-do differs-by digit-each digits-solid distance-laws distinct-others distinct-upto divide-root divided-all divided-more
divided-none divided-residue divided-root done-scaled done-swapped dot-append dot-powers dot-row dot-sum dot-turn downward-more downward-none
drop-values due-unread each-satisfied echelon-more echelon-none echelon-skip empty-below empty-few end-at end-right end-right-at enough-values
equal-by-members equation-made equation-new equations-at equations-length equations-more equations-push eval-apart eval-map-mod eval-mod eval-scale
even-turn exchanged-list explained-halts explains-at-points explains-from-points explains-from-test explanation-apart explanation-true factor-back
factor-first factor-zero far-too-many far-untold few-there filled-residue filled-take final-come final-go fine-at fine-below fine-none fine-past
fine-rest fine-rising first-fault first-le first-once fits-at fits-decides fits-entry fits-length found-explains found-few found-from-test found-is-ok
found-only found-or-gap found-refuses four-tried free-both from-below from-has from-pass from-take getD-equations getD-partials getD-points
getD-quotient getD-times-each getD-undo-each getD-values goes-missing goes-not going-by going-stop gone-and-come gone-below gone-count gone-covers
gone-decides gone-here gone-is gone-low gone-passed gone-rises gone-rising gone-room gone-root gone-roots gone-size gone-small has-append has-below
has-from-among has-later has-length has-not has-place has-under here-below here-is here-rising hit-at holds-from holds-iff holds-is holds-satisfies
horner-below horner-end horner-monic horner-root horner-step horner-top horner-turn in-after-out in-again in-part inserted-cut inserted-end
inserted-here inserted-later inserted-length inserted-past inserted-start inserted-there insertion-laws inverse-exists inverse-of inverse-unique
is-power its-line kept-length kept-text kept-values last-difference later-explained lazy-fermat lazy-other lazy-same lazy-small lazy-times lazy-value
left-cleared left-length length-after length-apart length-characteristic length-coefficients length-deeds length-equations length-join length-listed
length-matrix length-multiples length-numbers length-others length-partials length-points length-product length-quo length-quotient length-raised
length-scale length-scaled-powers length-shifted length-times-each length-undo-each length-upto length-values less-back less-back-is less-itself
less-onto less-plus less-row less-sums letter-at-points letter-each letter-fault-first letter-fault-second letter-fault-value letter-in
letter-in-value letter-is letter-leaves letter-never-both letter-now letter-of letter-of-points letter-says letter-size letter-sound letter-sound-from
letter-text letter-written letters-amiss letters-of letters-right letters-right-at list-each list-ends list-fault-first list-fault-missing
list-fault-number list-here list-in list-in-number list-is list-leaves list-never-both list-sound list-sound-from list-text lists-alike lists-are
lists-in lists-kept lists-set malformed-text matrix-at matrix-read matrix-set matrix-swapped member-moves mod-once monic-characteristic monic-eval
monic-join monic-leading monic-map-mod monic-mod monic-product monic-shift more-truly most-above most-fermat mul-cong mul-l mul-r multiple-factor
near-truthful negated-power never-nothing next-difference next-is next-left next-positive no-divisor no-memory no-root no-verb no-zero-first
none-absent none-asked none-by-unsolvable none-in-by none-in-ends none-in-first none-in-has none-in-more none-in-stops none-there none-truly not-above
not-among not-blank not-empty not-lent not-understood-text note-is number-in-list numbers-at numbers-below numbers-length numbers-read
numbers-replicate numbers-set numbers-take numbers-zero odd-turn of-kind of-that off-below off-nonzero off-points one-degree one-explanation
one-explanation-at one-explanation-parity one-request one-scaled ones-are-values only-all only-at-equal only-at-greater only-at-left-end only-at-less
only-at-right-end only-candidate only-cong only-equal only-from only-greater only-has only-lengths only-less only-nil only-rising only-triangle
onto-swapped opened-text order-free out-after-in out-again over-later over-more owed-end owed-turn own-place pair-and-way pair-and-way-from pair-from
part-has part-is part-listed part-numbers partials-below partials-exact passed-more passed-push place-apart place-fits place-test placed-turn
plain-below plain-get plain-length plain-parts plain-set point-not-in points-above points-among points-apart points-below points-distinct
points-filled points-lie-apart points-places points-prefix power-base power-done power-next power-products power-square powered-more powered-none
powers-grow powers-length powers-more powers-none powers-push prime-1048573 prime-13 prime-17 prime-2 prime-65537 prime-by prime-from product-first
product-length product-next product-nonzero products-agree products-more products-none pushed-taken put-all-below put-all-has put-all-length-le
put-all-nil put-all-rising put-below put-later put-length put-length-le put-put put-rising put-there put-without quo-exact quo-root quo-zero
quotient-below read-too-many read-true read-truly read-well reading-both reading-come reading-gone reading-neither reading-start reading-tried-all
reads-beside reads-by reads-from-solution reduced-turn refusal-text refused-text removal-laws removed-end removed-later removed-length removed-not
removed-past removed-start removed-there replaced-by replacing-stop request-back request-of right-each rising-cons rising-drop rising-inserted
rising-over rising-places rising-places-le rising-push rising-removed rising-tail room-differs room-found room-some root-among root-bound root-come
root-degree root-length root-zero row-pivot rows-moved rung-fits rung-small rung-unread same-letter same-letter-parity same-letters same-members
same-values-at satisfies-holds scaled-power scaled-power-below scaled-power-is scaled-power-mod scaled-powers scaled-powers-mod scaled-turn
searched-any shifted-exact site-list sites-count size-ns sizes-count sizes-largest sizes-near sizes-too-far sizes-within small-downward small-more
small-none small-reduced small-sums solid-decimal solution-size solution-starts solved-same solved-solves solves-at solves-by solves-entry solves-from
solves-none solves-push solves-solved some-letters-alike spaced-more spaced-push split-length squarings-more squarings-none stage-all stage-more
stage-none start-written step-at step-at-points step-come step-done step-neither step-none step-over step-rest step-right-at stopped-coming
stopped-first stopped-going stopped-second subset-length substituted-all substituted-more substituted-none substituted-turn sum-changed sum-combined
sum-congruent sum-front sum-none sum-zero swap-below swap-equal take-values taken-list taken-up tallied-more tallied-none tells-some
test-from-explains test-from-found test-refuses there-below there-is there-rising these-say times-back times-each times-onto times-raised times-row
times-sums together-truly told-few told-found told-true too-many-none tried-all true-difference-at true-difference-explains true-found truly-told
unanswered-at unasked-here unasked-truly underway-free underway-list underway-more underway-none underway-stop undo-each undo-inverse undoes-pivot
undoing-laws union-at-equal union-at-greater union-at-left-end union-at-less union-at-right-end union-either union-equal union-greater union-idem
union-laws union-length union-less unmet-at unmet-near unmet-truly unreachable-requires-in-rest-difference-beside unsolvable-no unsolvable-none
unsolvable-none-within unsolvable-too-many up-to-date up-to-date-by upto-has value-append value-back value-below value-front value-in-letter
value-member value-mod value-multiples value-next value-nonzero value-only value-put value-single value-some value-start value-take-out value-union
value-whole value-without value-zero values-are values-below values-by values-cons values-from-below values-is values-more values-multiply values-none
values-place values-prefix values-put values-right values-without verb-first verb-word way-from way-is-word way-word went-after went-at went-below
went-by went-done went-entry went-few went-filled went-letter went-next went-off went-row went-values where-is without-absent without-all-below
without-all-has without-all-only without-all-rising without-below without-has without-later without-length without-put without-rising without-without
words-after words-blanks words-front words-none words-spaced words-text written-more x-rises xs-below xs-rising y-rises ys-below ys-rising zero-apart
zero-by zero-difference zero-factor zero-only zero-product zero-to-itself
""".split()

# Names whose plain respelling is taken by another name.
OTHERWISE = {"Letter-of": "IsLetterOf"}

WORD = re.compile(r"(?<![\w'₀-₉-])[A-Za-z][\w'₀-₉-]*")
STRING = re.compile(r'"(?:[^"\\]|\\.)*"')


def respelled(name):
    if name[0].isupper():
        return "".join(part[0].upper() + part[1:] for part in name.split("-"))
    return name.replace("-", "_")


TABLE = {name: respelled(name) for name in NAMES} | OTHERWISE


def turned(text):
    return WORD.sub(lambda m: TABLE.get(m[0], m[0]), text)


def turned_code(text):
    out, at = [], 0
    for m in STRING.finditer(text):
        out += [turned(text[at : m.start()]), m[0]]
        at = m.end()
    return "".join(out) + turned(text[at:])


def turned_page(text):
    return re.sub(r"`[^`\n]+`", lambda m: turned(m[0]), text)


def main():
    for pattern, turn in [("crates/*/specs/**/*.antt", turned), ("crates/*/proofs/**/*.antt", turned), ("crates/*/src/**/*.rt", turned_code), ("crates/*/must-fail/*.edit", turned_code), ("README.md", turned_page), ("docs/*.md", turned_page)]:
        for path in sorted(glob.glob(pattern, recursive=True)):
            with open(path, encoding="utf-8") as f:
                old = f.read()
            new = turn(old)
            if new != old:
                with open(path, "w", encoding="utf-8") as f:
                    f.write(new)


main()
