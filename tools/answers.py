"""Answer lines of the calls program."""


def without_order(asked, line):
    """An answer to what was asked, as far as the order of branches may not change it (L6): an instant's without its passes, its atoms and the
    pieces that it parked (L8) sorted."""
    words = line.split(b" ")
    if len(words) != 13 or words[0] != b"0":
        return line
    atoms, row = int(words[5]), words[11]
    sorted_atoms = sorted(row[4 * k:4 * k + 4] for k in range(atoms))
    _, table, _, _, _, _, before = asked.split(b" ")
    return b" ".join(words[:7] + words[8:11] + [b"".join(sorted_atoms) + row[4 * atoms:], pieces_sorted(table, before, words[12])])


def pieces_sorted(table, before, after):
    """A store in hexadecimal, the pieces that it has more than before sorted; a piece has 4 bytes and 4 for each node of its body."""
    at, end = (4 + 2 * int(store[:4], 16) for store in (before, after))
    start, pieces = at, []
    while at < end:
        body = int(after[at + 4:at + 8], 16)
        size = int(table[12 * body + 8:12 * body + 12], 16)
        pieces.append(after[at:at + 8 + 8 * size])
        at += 8 + 8 * size
    return after[:start] + b"".join(sorted(pieces)) + after[end:]
