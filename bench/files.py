"""Makes the files that are measured: items with properties, references and extents."""

import os


def box(kind, body):
    return (8 + len(body)).to_bytes(4, "big") + kind + body


def u16(n):
    return n.to_bytes(2, "big")


def u32(n):
    return n.to_bytes(4, "big")


def full(version, flags=0):
    return bytes([version]) + flags.to_bytes(3, "big")


def entries_of(ids):
    """`iinf`: an entry for each id."""
    entries = b"".join(box(b"infe", full(2) + u16(i) + u16(0) + b"hvc1" + b"\0") for i in ids)
    return box(b"iinf", full(0) + u16(len(ids)) + entries)


def references_of(kind, pairs):
    """`iref`: a reference of this type for each pair, from the one to the other."""
    return box(b"iref", full(0) + b"".join(box(kind, u16(one) + u16(1) + u16(other)) for one, other in pairs))


def none(ids):
    """No references."""
    return b""


def star(ids):
    """Each item but the first one describes the first."""
    return references_of(b"cdsc", [(i, 1) for i in ids if i != 1])


def row(ids):
    """Each item but the last one describes the next."""
    return references_of(b"cdsc", [(i, i + 1) for i in ids if i != len(ids)])


def chain(ids):
    """Each item but the last one needs the next."""
    return references_of(b"prem", [(i, i + 1) for i in ids if i != len(ids)])


def properties_of(ids, kinds):
    """`iprp`: so many distinct properties, and two of them for each item."""
    if kinds == 0:
        return box(b"iprp", box(b"ipco", b"") + box(b"ipma", full(0) + u32(0)))
    boxes = b"".join(box(b"prop", u32(k)) for k in range(kinds))
    rows = b"".join(u16(i) + b"\2" + u16(i % kinds + 1) + u16((i + 1) % kinds + 1) for i in ids)
    return box(b"iprp", box(b"ipco", boxes) + box(b"ipma", full(0, 1) + u32(len(ids)) + rows))


def write(name, sizes, kinds=0, extents=1, links=none):
    """A file of items of these sizes, in the order of falling ids; how many boxes, items, extents,
    associations and references it has."""
    count = len(sizes)
    ids = range(count, 0, -1)
    head = box(b"ftyp", b"heic" + u32(0) + b"mif1heic")
    front = (
        full(0)
        + box(b"hdlr", full(0) + u32(0) + b"pict" + bytes(13))
        + box(b"pitm", full(0) + u16(1))
        + entries_of(ids)
        + links(ids)
        + properties_of(ids, kinds)
    )
    meta = 8 + len(front) + 8 + 8 + (8 + 8 * extents) * count
    offset = len(head) + meta + 8
    entries = []
    for i, size in zip(ids, sizes):
        parts = [size // extents] * (extents - 1)
        parts.append(size - sum(parts))
        entry = u16(i) + u16(0) + u16(0) + u16(extents)
        for part in parts:
            entry += u32(offset) + u32(part)
            offset += part
        entries.append(entry)
    iloc = box(b"iloc", full(1) + b"\x44\0" + u16(count) + b"".join(entries))
    with open(name, "wb") as file:
        file.write(head + box(b"meta", front + iloc))
        file.write(u32(8 + sum(sizes)) + b"mdat")
        chunk = os.urandom(1 << 20)
        left = sum(sizes)
        while left > 0:
            file.write(chunk[: min(left, len(chunk))])
            left -= len(chunk)
    references = 0 if links is none else count - 1
    associations = 2 * count if kinds else 0
    return 10 + count + kinds + references + count + extents * count + associations + references
