#!/usr/bin/env python3
"""Spells the repository's own definitions and lemmas as today's Rattle does: words in snake case.

usage: python3 tools/respell.py    at the top of a checkout in which port.py has run

It goes over the code's text of specs/, proofs/ and the clauses of src/, and over names between backticks in comments and
pages. Functions, types, strings, inputs and outputs keep their names, and so does the library. Run twice, it changes nothing.
"""
import glob
import re

# The names as they stood, which are ours; each becomes its snake case, but for those in OTHER.
OWN = """
absent-from accepted-edit accepted-list accepted-values addedBytes and-true answerAt append-bytes append-length apply-none
are-bytes backward-from be-back be-take beOf between-true bits-minus bits-plus body-bad body-number body-pos body-rest
body-text bound-room bound-turn by-option by-pick by-reading by-test by-walk bytes-is cascade-is chain-append chain-most
chain-new chain-old chain-written changeDone changeOf changeRefused changes-first checkGood checkOf checkRefused checked-back
checkedOf contentNumber contentOf contentRefused contentText count-is countGood countRefused countedOf decode-minus
decode-plus differing-same digit-high digit-turn digits-back digits-bytes digits-count digits-end digits-enough digits-most
digits-next done-back done-edit drop-bytes drop-set edited-back edited-none edited-refused edited-values editedOf editedValues
entries-limit entries-most entry-back entry-bad entry-is entry-rest field-bad field-rest first-digit fits-is forward-from
foundOf fourMore fourteenBits front-as goneBytes good-image good-reads half-most head-14 head-32 head-6 head-pos head14-is
head32-is held-is held-no held-yes holds-is holds-less holds-mag image-good image-length inKind is-bad is-refused isMinus
kind-small last-most lastDigits lastLength le-above le-back le-length le-more le-take le-take-lt leOf-lt leaves-image
leaves-values length-kept lengths-of looked-next looked-suc minus-casts minus-less minus-zero more-back more-is more-least
more-most narrows-bytes narrows-shorter newBefore none-either not-zero number-back number-bad number-empty number-minus
number-most number-plus number-rest numberBody numeral-back numeral-is numeral-pos ofSign ofTwos oldBefore one-image
open-edits open-entries open-lists or-false or-loose or-torn over-is over-length over-same past-nine placeAt placeNone
placeRefused plain-only plain-own plus-casts plus-is power-less power-most power-next previous-drop previous-take
previousLengths put-fits put-minus put-plus readField readNumber readNumber-back readNumber-is readText readText-back
readText-is reads-good refused-back refused-edit refused-number refused-values report-is report-none reverse-bytes
right-bytes samples-hold shorter-eight shorter-less shorter-one sign-is sixBits sizesOf skip-small small-back small-body
small-less small-minus small-most small-plus some-taken some-width storedCount take-bytes take-replicate text-back text-bad
text-bytes text-minus text-most text-plus text-rest textHead told-apart told-number toldOf true-between turned-fits twos-is
twos-lt twos-take walk-back walk-bad walk-enough walk-got walk-stopped whole-empty whole-first whole-least widens-first
widens-none with-signs written-more zero-alone zero-first
""".split()

# Where the snake case is another name: `edited_values` is the definition's, and `le_of_lt` would read as a law of order.
OTHER = {
    "edited-values": "edited_of_values",
    "edited-refused": "edited_of_refused",
    "leOf-lt": "le_of_below",
}

# The pages cite laws by their old names; port.py spelt these itself, and in crates/ alone.
SPELT = """
absent-none as-wide body-back body-is both-ends by-read chain-length count-most countOf counted-back digit-low field-back
field-is found-back found-first found-from front-length half-is half-pow half-twice holds-more lastAt le-bytes le-is le-split
leOf minus-is none-before not-first number-is other-fits placeOf readBody readEntry rest-more run-in run-out same-refl
same-true size-is size-small small-is start-fits textOf told-back told-none too-many twos-back walk-is whole-back whole-is
width-is written-all written-none
""".split()


def snake(name):
    return re.sub(r"([a-z0-9])([A-Z])", lambda m: m[1] + "_" + m[2].lower(), name.replace("-", "_"))


NEW = {name: OTHER.get(name, snake(name)) for name in OWN}
IN_PAGES = NEW | {name: snake(name) for name in SPELT}
NAME = re.compile(r"[\w'-]+")


def renamed(text, table):
    return NAME.sub(lambda m: table.get(m[0], m[0]), text)


def quoted(text, table):
    return re.sub(r"`[^`\n]+`", lambda m: renamed(m[0], table), text)


def antt(line):
    code, dashes, comment = line.partition("--")
    return renamed(code, NEW) + dashes + quoted(comment, NEW)


def rt(line):
    """A line of src/: only what clauses and ghost imports say is antt."""
    if re.match(r"\s*(ghost use|requires|ensures)\b", line):
        return renamed(line, NEW)
    return quoted(line, NEW) if line.lstrip().startswith("//") else line


def respell(pattern, turn):
    for path in sorted(glob.glob(pattern, recursive=True)):
        with open(path, encoding="utf-8") as file:
            old = file.read()
        new = turn(old)
        if new != old:
            with open(path, "w", encoding="utf-8") as file:
                file.write(new)


def by_line(turn):
    return lambda text: "".join(turn(line) for line in text.splitlines(keepends=True))


respell("crates/*/specs/**/*.antt", by_line(antt))
respell("crates/*/proofs/**/*.antt", by_line(antt))
respell("crates/*/src/**/*.rt", by_line(rt))
respell("docs/AUDIT.md", lambda text: quoted(text, IN_PAGES))
respell("docs/DECISIONS.md", lambda text: quoted(text, IN_PAGES))
