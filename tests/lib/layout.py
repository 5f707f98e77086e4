"""The form of the bytes of sheets and logs (docs/RULES.md, "The sheet" and "Logs"), for the tests."""
from itertools import accumulate

NODES, LABELS, ARROWS = 60, 48, 16
BLOCK = 512
SHEET = BLOCK * (1 + ARROWS)
LABEL_BLOCK = 0
IN_USE = LABELS  # the row of block 0 after the labels: the nodes in use
ROWS = 16
SUMS = 508
MODULUS = 257


def arrow_block(arrow):
    return 1 + arrow


def byte_of(block, row, node):
    return BLOCK * block + ROWS + 8 * row + node // 8


def has(sheet, block, row, node):
    return sheet[byte_of(block, row, node)] >> node % 8 & 1 == 1


def sums(body):
    """The check bytes. The remainders are taken of the whole sums, which comes to the same as one for each byte."""
    s, t = sum(body) % MODULUS, sum(accumulate(body)) % MODULUS
    return s.to_bytes(2, "little") + t.to_bytes(2, "little")


def seal(sheet, block):
    """Writes the check bytes of a block."""
    start = BLOCK * block
    sheet[start + SUMS : start + BLOCK] = sums(sheet[start : start + SUMS])


# A block of a log (docs/RULES.md, "Logs"): its check bytes are those of a sheet's block.

LOG = 3
FIRST, LAST = 1, 2
CONTENT_START = 4
CONTENT = SUMS - CONTENT_START


def log_block(mark, part):
    body = bytes([LOG, mark]) + len(part).to_bytes(2, "little") + part + bytes(CONTENT - len(part))
    return body + sums(body)


def log_blocks(edit):
    """The blocks of an edit, which has one byte at least."""
    parts = [edit[at : at + CONTENT] for at in range(0, len(edit), CONTENT)]
    return [log_block((FIRST if at == 0 else 0) + (LAST if at == len(parts) - 1 else 0), part) for at, part in enumerate(parts)]


def log_content(block):
    return block[CONTENT_START : CONTENT_START + int.from_bytes(block[2:CONTENT_START], "little")]
