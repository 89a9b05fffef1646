#!/usr/bin/env python3
"""Nets and blocks of nets as hexadecimal text with comments, and back; and where the first fault of one is.

    nets/hex.py bytes FILE.hex       the bytes that the text says, on standard output
    nets/hex.py text FILE            the bytes of a net or a block as text, each number named and said in decimal
    nets/hex.py block FILE.hex ...   the bytes of the block of these nets: for each a field of tag 6 with its bytes
    nets/hex.py explain FILE         whether a net or block, as bytes or text, is accepted, or where its first fault is

FILE may be - for standard input. In a text, # begins a comment that ends with its line; the rest is hexadecimal
digits, with white space wherever one likes. A line holds whole bytes, so that a digit too many or too few is found on
the line where it is.

Any bytes can be turned into text, also those that are no net and no block: what does not follow the format is given as
plain digits. The text always turns back into the same bytes. Bytes that begin with tag 6 are taken for a block, as no
net begins so. What a net holds does not matter to a block, only its length.

What is explained is told in a line: `accepted: ` and the counts, or `refused N: PLACE: WHAT` with the number N that
the library gives, and then perhaps a line that may help. Of a block it is a line for each net, but one with 13 alone
if it is no block. Bytes are counted from 0, in a block by the whole file; of a text those that it says, and its lines
from 1. A file of printable characters and white space, not of white space alone, is taken for text, and this is told.
All others are taken for bytes: no net and no block begins with a printable character.

Exit status 1: a file cannot be read or is no such text; a net is longer than 65,535 bytes, a block longer than 65,536;
what is explained, or a net of it, is refused. 2: wrong use.
"""
import re
import sys

sys.dont_write_bytecode = True  # No folder of compiled files beside the nets.
from faults import COST, DRIVER, EDGE, HEAD, LAYERS, MOST_BLOCK, MOST_PAYLOAD, NET_TAG, NODES
from faults import due, explained, number, width_of


def rows(text, name):
    """The bytes that each line of a text says; a fault ends the program with file and line."""
    for count, row in enumerate(text.split("\n"), 1):
        digits = re.sub(r"[ \t\r\v\f]", "", row.split("#")[0])
        wrong = re.search(r"[^0-9a-fA-F]", digits)
        if wrong:
            sys.exit(f"{name}:{count}: {wrong.group()!r} is no hexadecimal digit")
        if len(digits) % 2:
            sys.exit(f"{name}:{count}: an odd number of digits, {len(digits)}; two make a byte")
        yield bytes.fromhex(digits)


def to_bytes(text, name):
    """The bytes that a text says."""
    return b"".join(rows(text, name))


def cut(data, widths):
    """The pieces of some bytes, from the front."""
    ends = [sum(widths[:count]) for count in range(len(widths) + 1)]
    return [data[start:end] for start, end in zip(ends, ends[1:])]


def line(pieces, comment):
    """One line of text: some pieces of bytes, and what they are."""
    return f"{' '.join(piece.hex().upper() for piece in pieces):<35} # {comment}\n"


def head(tag, length):
    """The pieces of a field's head."""
    return [bytes([tag]), length.to_bytes(2, "big")]


def head_text(tag, length):
    return line(head(tag, length), f"tag {tag}, {length} bytes follow")


def named(pieces, described):
    """Some numbers in words, each from its piece."""
    return [f"{each.what} {each.value(piece)}" for piece, each in zip(pieces, described)]


def parts(data, described):
    """A line for each number."""
    pieces = cut(data, [each.width for each in described])
    return "".join(line([piece], words) for piece, words in zip(pieces, named(pieces, described)))


def layer_count(tag, payload):
    return len(payload) // width_of(LAYERS[tag])


def layers_text(tag, payload):
    """A line for each layer."""
    described, count = LAYERS[tag], layer_count(tag, payload)
    layers = [cut(payload[layer * width_of(described):], [each.width for each in described]) for layer in range(count)]
    return "".join(
        line(pieces, f"layer {layer}: {', '.join(named(pieces, described))}") for layer, pieces in enumerate(layers))


def costs_text(data, layers):
    """Costs, four to a line."""
    costs = cut(data, [COST.width] * layers)
    fours = [(first, costs[first:first + 4]) for first in range(0, layers, 4)]
    return "".join(
        line(four, f"costs from layer {first} on: {' '.join(str(COST.value(cost)) for cost in four)}")
        for first, four in fours)


def field_text(tag, payload, place, layers):
    """The text of the field at a place (0 layers, 1 driver, then nodes), or None if it is not what is due there."""
    if len(payload) not in due(place, layers).get(tag, []):
        return None
    if place == 0:
        name, body = "layers", layers_text(tag, payload)
    elif place == 1:
        name, body = "driver, node 0", parts(payload, DRIVER)
    else:
        kind, own = NODES[tag]
        edge, costs = width_of(EDGE), COST.width * layers
        name = f"node {place - 1}: {kind}"
        body = parts(payload, EDGE) + costs_text(payload[edge:], layers) + parts(payload[edge + costs:], own)
    return f"\n# {name}\n" + head_text(tag, len(payload)) + body


def fields(data):
    """The fields from the front that are whole: their places, tags and payloads."""
    at = 0
    while at + HEAD <= len(data) and at + HEAD + number(data[at + 1:at + HEAD]) <= len(data):
        end = at + HEAD + number(data[at + 1:at + HEAD])
        yield at, data[at], data[at + HEAD:end]
        at = end


def rest_text(data, at, what, first):
    """What does not follow the format, from `at` on, 32 bytes a line. The data begin with the file's byte `first`."""
    if at == len(data):
        return ""
    lines = (data[start:start + 32].hex().upper() + "\n" for start in range(at, len(data), 32))
    return f"\n# from here, byte {first + at}, not the format of a {what}\n" + "".join(lines)


def net_text(net, first):
    """Field by field as long as the bytes follow the format; then the rest. `first` is the net's first byte."""
    text, done, layers = "", 0, 0
    for place, (at, tag, payload) in enumerate(fields(net)):
        field = field_text(tag, payload, place, layers)
        if field is None:
            break
        if place == 0:
            layers = layer_count(tag, payload)
        text, done = text + field, at + HEAD + len(payload)
    return text + rest_text(net, done, "net", first)


def block_text(block):
    """Net by net as long as the bytes follow the format; then the rest as it is."""
    text, done = "", 0
    for count, (at, tag, payload) in enumerate(fields(block), 1):
        if tag != NET_TAG:
            break
        text += f"\n# net {count} of the block\n" + head_text(tag, len(payload)) + net_text(payload, at + HEAD)
        done = at + HEAD + len(payload)
    return text + rest_text(block, done, "block", 0)


def to_text(data):
    """The text of any bytes: as a block if they begin with a block's tag, else as a net."""
    return block_text(data) if data[:1] == bytes([NET_TAG]) else net_text(data, 0)


def to_block(nets):
    """The block of some nets, each given with its name; one that is too long ends the program."""
    block = bytearray()
    for name, net in nets:
        if len(net) > MOST_PAYLOAD:
            sys.exit(f"{name}: a net of {len(net):,} bytes; a block's field holds {MOST_PAYLOAD:,} at most")
        block += b"".join(head(NET_TAG, len(net))) + net
    if len(block) > MOST_BLOCK:
        sys.exit(f"a block of {len(block):,} bytes; {MOST_BLOCK:,} are the most")
    return bytes(block)


def contents(name):
    """The bytes of a file; one that cannot be read ends the program."""
    try:
        with open(0 if name == "-" else name, "rb") as file:
            return file.read()
    except OSError as error:
        sys.exit(f"{name}: {error.strerror}")


def said(name):
    """The bytes that the text in a file says."""
    return to_bytes(contents(name).decode(errors="replace"), name)


def is_text(data):
    """Whether a file is taken for text: all printable characters and white space, and not white space alone."""
    try:
        rest = data.translate(None, b" \t\n\v\f\r").decode()
    except UnicodeDecodeError:
        return False
    return rest != "" and rest.isprintable()


def explain(data, name):
    """Whether what a file holds is accepted, and what is said of it, line by line."""
    if not is_text(data):
        return explained(data)
    pieces = list(rows(data.decode(errors="replace"), name))
    return explained(b"".join(pieces), [count for count, piece in enumerate(pieces, 1) for _ in piece])


def main():
    use, names, status = sys.argv[1] if len(sys.argv) > 1 else "", sys.argv[2:], 0
    if use == "bytes" and len(names) == 1:
        made = said(names[0])
    elif use == "text" and len(names) == 1:
        made = to_text(contents(names[0])).encode()
    elif use == "block" and names:
        made = to_block([(name, said(name)) for name in names])
    elif use == "explain" and len(names) == 1:
        accepted, told = explain(contents(names[0]), names[0])
        made, status = ("\n".join(told) + "\n").encode(), 0 if accepted else 1
    else:
        uses = ["bytes FILE.hex", "text FILE", "block FILE.hex ...", "explain FILE"]
        print("usage: " + " | ".join(f"nets/hex.py {use}" for use in uses), file=sys.stderr)
        return 2
    try:
        sys.stdout.buffer.write(made)
        sys.stdout.buffer.flush()
    except OSError as error:
        sys.exit(f"standard output: {error.strerror}")
    return status


if __name__ == "__main__":
    sys.exit(main())
