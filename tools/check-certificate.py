#!/usr/bin/env python3
"""check-certificate.py FILE..: whether each file has the form of a certificate (docs/certificates.md), as far as that
does not depend on the program. Prints `FILE: yes`, with counts, or `FILE: Form N` with the first line at fault.

Shares nothing with ccheck. What it does not know: the number of blocks and the length of a row that the program has,
which kind stands at a position, and how many bases there are."""
import re
import sys

NUMBER = r'(?:0|-?[1-9][0-9]*)'
COUNT = r'(?:0|[1-9][0-9]*)'
RANGE = rf'(?:-|{NUMBER}:{NUMBER})'
BIT = '[01]'
BASES = '(?:0|[1-9a-f][0-9a-f]*)'
HEAD = re.compile(rf'ccheck-cert 1 ({COUNT}) ({COUNT})')
BLOCK = re.compile(rf'u|r ({COUNT})')
VALUE = re.compile(
    rf'({COUNT}) v ({RANGE}) ({BIT}) ([0-7]) ({BASES}) ({RANGE}) ({RANGE}) ({RANGE}) ({BIT}) ({BIT}) ({BIT})')
FIRST = re.compile(rf'({COUNT}) z ({RANGE})')
STATE = re.compile(rf'({COUNT}) h ({RANGE}) ({BIT}) ({BIT})')
GREATEST = 2 ** 64
MOST_BASES = 1016


def in_range(text):
    """Whether a range is none, or ascends within its ends."""
    if text == '-':
        return True
    low, high = map(int, text.split(':'))
    return -GREATEST <= low <= high <= GREATEST


def is_value(words):
    number, indeterminate, labels, bases, low, relative, length, part, null, ended = words
    somewhere = bases != '0'
    told = number != '-' or '1' in (indeterminate, null, ended) or labels != '0' or somewhere
    return (told and int(bases, 16) < 2 ** MOST_BASES
            and all(map(in_range, (number, low, relative, length)))
            and all((x != '-') == somewhere for x in (low, relative, length))
            and (somewhere or part == '0'))


def cell_at(line):
    """The position of the cell that a line gives, or None where it gives none."""
    if match := VALUE.fullmatch(line):
        return int(match[1]) if is_value(match.groups()[1:]) else None
    if match := FIRST.fullmatch(line):
        return int(match[1]) if match[2] != '-' and in_range(match[2]) else None
    if match := STATE.fullmatch(line):
        told = match[2] != '-' or '1' in (match[3], match[4])
        return int(match[1]) if told and in_range(match[2]) else None
    return None


def first_fault(data):
    """The first line at fault, and None where there is none; with the numbers of blocks, rows and cells."""
    *lines, left = data.decode('latin-1').split('\n')
    head = HEAD.fullmatch(lines[0]) if lines else None
    if not head:
        return 1, None
    blocks, width = int(head[1]), int(head[2])
    begun = owed = rows = cells = next_position = 0
    for number, line in enumerate(lines[1:], 2):
        if owed:
            position = cell_at(line)
            if position is None or position < next_position or position + owed > width:
                return number, None
            owed, next_position, cells = owed - 1, position + 1, cells + 1
            continue
        block = BLOCK.fullmatch(line)
        if begun == blocks or not block:
            return number, None
        begun, next_position = begun + 1, 0
        if block[1] is not None:
            owed, rows = int(block[1]), rows + 1
            if owed > width:
                return number, None
    if left or owed or begun < blocks:
        return len(lines) + 1, None
    return None, (blocks, rows, cells)


def main():
    status = 0
    for name in sys.argv[1:]:
        with open(name, 'rb') as file:
            fault, counts = first_fault(file.read())
        if fault is None:
            print(f'{name}: yes: {counts[0]} blocks, {counts[1]} of them reached, {counts[2]} cells')
        else:
            print(f'{name}: Form {fault}')
            status = 1
    return status


if __name__ == '__main__':
    sys.exit(main())
