#!/usr/bin/env python3
"""Makes templates that give the expression of a tag whole, whatever its identifiers are: whole_expressions.py OUT

A template reports its shortest ranges, so one that ends in a variable needs what follows it: `expression` takes all tokens that can belong to an
expression, and then one that cannot go on with it. Where nothing follows, at the end of a file, there is a template for each number of items (a
joined word, an operator with its operand, a `+`, a closing parenthesis): each is found once at most, and the longest is left.

Their variables reach far, so they cost several times what the starter set costs: they are for files of which it says that a tag is cut.

- expression: the variable `expression`, and `next`, the token that follows.
- expression-b: the same before a colon, or before one dot or two and a word, with which the next line begins.
- expression-0-dot, -1 ..: an expression with that number of dots in it, then a dot, and no word or mark.
- expression-end-0, -1 ..: at the end of a file; own-expression-end-0 ..: the same of one that begins with LicenseRef-, which may have dots in its names.
- cut-expression, cut-own-expression: at the end of a file, one of more items.
"""
import os
import sys

from expressions import ENDING, MARKS, MOST_OPERATORS, OPERATOR, TAG, variable

MOST_ITEMS = 30
MOST_DOTS = 8
OPEN, CLOSE = r"\({0,40}", r"\){0,40}"
IDENTIFIER = r"[-_a-z0-9]{0,200}[a-z0-9](\.[0-9]([-_a-z0-9]{0,40}[a-z0-9])?){0,5}"
OWN = "(documentref-[-_.a-z0-9]{1,120}:)?(licenseref|additionref)-[-_.a-z0-9]{0,200}[a-z0-9]"
OPERAND = rf"{OPEN}({IDENTIFIER}|{OWN})\+?{CLOSE}"
MIDDLE = f"( {OPERATOR} {OPERAND}){{0,{MOST_OPERATORS}}}"
EXPRESSION = OPERAND + MIDDLE
WORD = "[a-z0-9]{1,200}"
# the first word of an expression, if it ends with these letters or not
REF = "[a-z0-9]{0,200}ref"
NO_REF = "([a-z0-9]{0,200}([a-eg-z0-9]|[a-df-z0-9]f|[a-qs-z0-9]ef)|e?f)"
REST = rf"([-_]{{1,3}}{WORD}|\.[0-9][a-z0-9]{{0,60}}){{0,60}}"
# an operand that is none of one's own, and expressions that begin with one: such a one alone or last, and one of one's own last
NO_OWN = rf"{OPEN}{NO_REF}{REST}\+?{CLOSE}"
NO_OWN_LAST = f"{NO_OWN}({MIDDLE} {OPERATOR} {NO_OWN})?"
OWN_LAST = f"{NO_OWN}{MIDDLE} {OPERATOR} {OPEN}{OWN}"
ITEM = rf"[-_]{{1,3}}{WORD}|\.[0-9][a-z0-9]{{0,60}}|\+|\)|:(licenseref|additionref)| {OPERATOR} {OPEN}{WORD}"


def letter(but=""):
    """A letter of a word, but none of these."""
    return f"[^ {but}{MARKS}]"


def mark(but):
    """A mark, but none of these."""
    return "[" + "".join(it for it in "]!'#$%&()*,./:;<=>?@[\\^_{|}~+-" if it not in but) + "]"


# a word that is no operator, by its last letters
OTHER_WORD = (letter() + "{0,200}(" + "|".join(letter(but) + rest for but, rest in
              (("dhr", ""), ("o", "r"), ("n", "d"), ("a", "nd"), ("t", "h"), ("i", "th"), ("w", "ith"))) + ")"
              + "|" + letter() + "{1,200}" + OPERATOR + "|[dhr]|nd|th|ith")
# what cannot go on: such a word, a mark, marks that join nothing, an operator without an operand
NEXT = f"{OTHER_WORD}|{mark('-_+.:)')}|[-_.]{{1,4}}{mark('-_.')}|{OPERATOR} {mark('(')}"
# one dot or two and a word that begins with no digit, a colon and a word that does not end with `ref`, or a mark
DOT = f"[.]{{1,2}}{letter('0-9')}{letter()}{{0,200}}"
COLON = f":({letter()}{{0,200}}({letter('f')}|{letter('e')}f|{letter('r')}ef)|e?f|{mark('')})"


# what follows the beginning of an identifier up to a dot
UP_TO_DOT = rf"[-_:a-z0-9]{{0,200}}\+?{CLOSE}( {OPERATOR} {OPEN}[-_:a-z0-9]{{1,200}}\+?{CLOSE}){{0,30}}"


def with_dots(count):
    """The tag of an expression with this number of dots, each before a digit, and then a dot."""
    return TAG + variable("expression", "MIT-1" + ".0" * count, rf"{OPEN}[a-z0-9]{UP_TO_DOT}" + (rf"(\.[0-9]{UP_TO_DOT}){{{count}}}" if count else "")) + "."


def at_end(word, first, item, items):
    """The tag of an expression of this number of items after its first word."""
    return TAG + variable("expression", word + "-Own" * items, f"{OPEN}{first}" + (f"({item}){{{items}}}" if items else ""))


def templates():
    yield "expression", f"{TAG}{variable('expression', 'MIT OR Own', EXPRESSION)} {variable('next', 'int', NEXT)}"
    yield "expression-b", f"{TAG}{variable('expression', 'MIT OR Own', NO_OWN_LAST)} {variable('next', '.text', f'{DOT}|{COLON}')}"
    yield "cut-expression-b", f"{TAG}{variable('expression', 'MIT OR LicenseRef-Own', OWN_LAST)} {variable('next', '.text', DOT)}"
    for dots in range(MOST_DOTS + 1):
        yield f"expression-{dots}-dot", with_dots(dots)
    for name, word, first, item in (("expression", "Own", NO_REF, ITEM), ("own-expression", "LicenseRef", REF, rf"{ITEM}|\.{{1,2}}{WORD}")):
        for items in range(MOST_ITEMS + 1):
            yield f"{name}-end-{items}", at_end(word, first, item, items)
        yield f"cut-{name}", at_end(word, first, item, MOST_ITEMS + 1)


def main():
    if len(sys.argv) != 2:
        sys.exit("usage: whole_expressions.py OUT")
    os.makedirs(sys.argv[1], exist_ok=True)
    for name, text in templates():
        with open(os.path.join(sys.argv[1], name + ENDING), "w", encoding="utf-8") as file:
            file.write(text + "\n")


if __name__ == "__main__":
    main()
