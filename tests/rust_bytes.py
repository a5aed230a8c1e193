"""Byte strings of Rust source: how they are written, and which stand in a file, item by item."""
import re

TOKEN = re.compile(
    r'''//[^\n]*|(?<!\w)b"((?:\\.|[^"\\])*)"|"(?:\\.|[^"\\])*"|'(?:\\.|[^'\\])'|\[(\s*0x[0-9a-f]{2},(?:[^\]]*))\]''', re.S
)
ITEM = re.compile(r"^ *(?:pub(?:\(crate\))? )?(?:const|static|fn|enum|struct|impl|mod) (?:mut )?(\w+)", re.M)
ESCAPES = {"0": 0, "n": 10, "r": 13, "t": 9, '"': 34, "'": 39, "\\": 92}
SHOWN = {0: "\\0", 34: '\\"', 92: "\\\\"}


def spelled(data):
    """Bytes as a byte string of Rust."""
    return 'b"' + "".join(SHOWN.get(b) or (chr(b) if 32 <= b < 127 else f"\\x{b:02x}") for b in data) + '"'


def read(text):
    """The bytes of what stands between the quotes of a byte string."""
    found, at = bytearray(), 0
    while at < len(text):
        if text[at] != "\\":
            found += text[at].encode()
            at += 1
        elif text[at + 1] == "x":
            found.append(int(text[at + 2 : at + 4], 16))
            at += 4
        elif text[at + 1] == "\n":
            at = re.compile(r"\s*").match(text, at + 1).end()
        else:
            found.append(ESCAPES[text[at + 1]])
            at += 2
    return bytes(found)


def is_plain(data):
    """Whether these are letters and signs alone, which a reader sees as they are."""
    return all(32 <= b < 127 for b in data)


def items_of(source):
    """Each item's byte strings and arrays of hexadecimal bytes, in order, without strings of letters and signs alone."""
    starts = [(it.start(), it.group(1)) for it in ITEM.finditer(source)]
    items = {}
    for token in TOKEN.finditer(source):
        if token.group(2) is not None:
            data = bytes(int(it, 16) for it in re.findall("0x([0-9a-f]{2})", token.group(2)))
        elif token.group(1) is not None and not is_plain(read(token.group(1))):
            data = read(token.group(1))
        else:
            continue
        if data:
            name = [name for start, name in starts if start < token.start()][-1]
            items.setdefault(name, []).append(data)
    return items
