#!/usr/bin/env python3
"""Brings this repository's own definitions and lemmas to today's spelling: words in snake case, facts as types.

This script is history: it speaks as of 26 November 2026, when it was run once, at the top (it stood in tools/ then), right after the toolchain's own port script, before any edit by hand.

It goes by whole names, in the .antt and .rt files below crates/ (there outside strings) and, between backticks, in README.md and docs/.
A name of NAMES is written in snake case; OTHERS has those that would fall together with another name, and a fact that was not spelled as a type.
"""

import os
import re

OTHERS = {
    "Some-number": "SomeNumber",
    "few-enough": "few_enough_lem",
    "is-point": "is_point_lem",
    "kinded": "IsKinded",
    "laid-all": "laid_all_lem",
    "laid-out": "laid_out_lem",
    "laid_out": "laid_out_lem",
    "of-kind": "of_kind_lem",
    "of-sort": "of_sort_lem",
    "point-holds": "point_holds_lem",
    "same-number": "same_number_lem",
    "same_number": "same_number_lem",
}

NAMES = """
a-number affirmed-zero affirming-zero after-shadow after-stored afterStatement afterTerm again-all again-listed again-statement again-term all-clear
all-fine all-ranges all-taken all-zero always-along among-may among-skip and-false and-hull any-holds anyMark apart-at apart-differ append-ascending
applied-holds arityOf around-neg around-pos aroundZero as-ranged ascending-at aspectBounds aspectKind assign-laid assign-written at-along at-not
back-has back-is-open before-later before-longer begins-tail begun-stored blank-all blank-more both-again bothOf bounded-holds branch-lays
break-inside break-is broken-first by-overlap by-ranges by-room byDomain byFound byHead byVerb certainEqual certainLess certainOdd clear-more
clear-tables close-refused closesBlock colonAfter computed-hull constant-hull constant-read decisionOf declared-all declaredIn deeperOf deepestOf
denied-one denying-one difference-hull digitsAt domainBounds domainKind domainOf domainWord domainsIn each-is-path each-path-is either-max either-min
end-in-block entry-refused equal-hull equal-told evaluated-covers expression-read expression-refused expression-room false-implies-true
false-not-implied-by-true few-rows few-statements few-variables fewEnough fills-read fillsFrom firstPart firstWith fitsIn fitting-range five-by-zero
five-leaves five-less-mention fork-apart fork-fits fork-has fork-in-order fork-is-labelled fork-joins fork-labelled fork-splits found-covers
found-room from-begins from-later fullBy gap-refused gather-all gather-ascending gather-each gather-from gather-same given-kind goesOn goesOnUnit
greater-hull greatest-hull held-by-meet here-all here-ascending here-at here-length high-in high-of holds-in implied-hull implies-hull in-at
in-gather in-here in-overlap in-range in-room inClass index-here index-later index-nowhere indexFrom is-above is-less is-most is-not-less isBreak
isDeclaration isDomain isJoin isKind isLabel isLike isList isName isPoint isRange isRequire isTerm isText isTruth isWhen isWord its-low its-number
join-of-none joinedOf joins-1 joins-2 keepsRules kind-holds kindAt kindGiven kindsFit kindsKept label-on-two laid-push laid-statement laidAll laidIn
laidOut layerOf lays-refused lead-refused leads-inside least-failing least-hull least-kind least-range led-stored leftBy length-laid length-on
length-put less-hull less-is less-told list-closed list-unclosed listed-again listed-as listed-is listedIn listing-read listingOf locatedBy lost-part
low-in mag-product mag-quotient map-ascending mapMentions mark-in mark-past marksBy may-next member-here member-later member-nowhere mention-read
mentionBounds mentionKind mentions-all mentions-tail minus-seven-by-two minus-seven-leaves minus-three-is-odd nameByte nameIn names-are names-none
names-some neg-neg negatedOf negative-hull never-full never-left never-right next-in next-may no-branch no-break no-circle no-tables no-ways
none-again none-laid not-apart not-greater-hull not-hull not-implied-hull not-implies-hull not-less not-less-hull not-less-is not-one not-or-is
not-second not-zero nothing-opens nth-map number-hull odd-hull odd-told odd-turns of-alike ofDomain ofKind ofSort one-entry-left one-to-one one-when
only-rule onward-in onward-may opensBlock opensDeclaration operand-refused operands-refused operands-room operandsAfter operandsOf operator-read
operatorHead operatorOf or-hull ordered-true outcomeIn over-left overlapOf passed-all passed-more pathLimit paths-ascending paths-complete
paths-sound pathsTo picked-hull plain-after-hang point-of pointApplied pointBounded pointFits pointHolds pointMet pointNumber pointOr pos-neg
product-above product-below product-fits product-hull productsOf push-count push-listed push-proper pushed-is put-after put-append quotient-around
quotient-enclosing quotient-within rangeApplied rangeBounded rangeComputed rangeDecided rangeFits rangeHolds rangeMet ranged-holds ranged-next
rangedRows reach-0 reach-1 read-in read-room readAgain readBegin readBounds readBracketed readBranch readByte readClass readClose readClosing
readColon readDecimal readDeclaration readDeclarations readDeclared readDefined readDomain readEnd readExpression readFinish readFresh readGap
readGapLabel readHeading readHigh readInner readKeyword readLabel readLabelEnd readLead readListed readListing readMayGap readMore readMoreListed
readName readNames readNamesListed readNumber readOpen readOperands readPair readRepeated readRest readRow readSentence readSingle readStatements
readTarget readTerm readText readTextEnd readUnit readUnseen readVariable readWhite readWhole readWord readable-right readable-whole reads-after
reads-giving reads-pair record-steps recordStep refusalOf refused-in refused-of refuses-before refuses-pair rem-around remainder-enclosing
remainder-fits remainder-within remainderOf rest-stored result-is result-kind result-sort room-kept room-left round-closes row-table rowCount
rowKnown rowLimit rows-counted rows-push rows-read rows-refused rowsAll run-stop same-domains same-result same-told sameNumber sameWord scan-end
scan-hit scan-miss scan-start scope-is scopeIn second-has sentence-room sentenceIn sentencesIn shared-low spanKept split-of-one spread-more
stack-next stageKnown stands-term statement-refused statementLimit staysIn step-read step-refused stepsIn stopped-rows sum-clipped sum-hull
sum-onward take-over term-read term-refused term-room term-short term-unread termAt termIn text-kinds text-more text-span text-step text-steps
text-stop textAt textByte textRun to-0 to-1 told-along told-both told-either told-not toldRows too-many-paths top-is total-is true-implied-by-false
true-implies-false true-not-implies-false truth-above truth-below truth-hull truth-is truth-ranged truth-told truthRange turned-back turned-not-or-is
turned-or-is two-has unequal-hull unit-read unit-refused unit-steps unitIn unknown-holds unknownOf unseen-read unseen-refused value-agrees value-all
value-least value-more valueAfter variableLimit verbOf verbWord walk-below walk-distinct way-walk ways-ascending ways-complete ways-count ways-each
ways-length ways-sound waysFrom waysTo wellLaid wellNamed when-in-block whiteRun whole-stored within-listing without-below without-distinct
without-length without-none writesTerm
""".split()


def snake(name):
    return re.sub(r"(?<=[a-z0-9])([A-Z])", lambda m: "_" + m[1].lower(), name.replace("-", "_"))


TABLE = {name: snake(name) for name in NAMES} | OTHERS
NAME = re.compile(r"(?<![\w'-])(" + "|".join(re.escape(n) for n in sorted(TABLE, key=len, reverse=True)) + r")(?![\w'-])")
STRING = re.compile(r'(b?"(?:\\.|[^"\\])*")')


def respelled(text):
    return NAME.sub(lambda m: TABLE[m[1]], text)


def turned(path, text):
    if path.endswith(".antt"):
        return respelled(text)
    if path.endswith(".rt"):
        return "".join(part if i % 2 else respelled(part) for i, part in enumerate(STRING.split(text)))
    return re.sub(r"`[^`\n]+`", lambda m: respelled(m[0]), text)


def files():
    for top in ("crates", "docs"):
        for folder, folders, names in os.walk(top):
            folders[:] = [f for f in folders if f != "out"]
            yield from (os.path.join(folder, n) for n in sorted(names) if n.endswith((".antt", ".rt", ".md")))
    yield "README.md"


for path in files():
    with open(path, encoding="utf-8") as f:
        old = f.read()
    new = turned(path, old)
    if new != old:
        with open(path, "w", encoding="utf-8") as f:
            f.write(new)
