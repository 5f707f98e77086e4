"""The codes of books and edits and what follows each (docs/RULES.md): k, a, i, j, m are one byte each, capitals are texts."""

FOLLOW = {
    # nodes
    0x01: "", 0x02: "", 0x03: "k", 0x04: "i", 0x05: "E", 0x06: "EF", 0x07: "EF", 0x08: "RE", 0x09: "RE", 0x0A: "mRE", 0x0B: "mRE",
    # arrows
    0x11: "a", 0x12: "R", 0x13: "RS", 0x14: "RS", 0x15: "RS", 0x16: "RE", 0x17: "ij",
    # rules
    0x21: "EF", 0x22: "RS", 0x23: "iE", 0x24: "ijR", 0x25: "KL", 0x26: "KL", 0x27: "K",
    # edits
    0x30: "", 0x31: "kEZ", 0x32: "kEZ", 0x33: "aRZ", 0x34: "aRZ", 0x35: "KPQZ",
}


def end(text, start):
    """Where the text that begins at start ends. None if it does not end, or has a byte that is not a code."""
    wanted = 1
    while wanted > 0:
        if start >= len(text) or text[start] not in FOLLOW:
            return None
        follow = FOLLOW[text[start]]
        texts = sum(item.isupper() for item in follow)
        start += 1 + len(follow) - texts
        wanted += texts - 1
    return start if start <= len(text) else None


def rules(book):
    """Start and end of each rule up to the first that does not end."""
    found = []
    start = 0
    while start < len(book) and (after := end(book, start)) is not None:
        found.append((start, after))
        start = after
    return found
