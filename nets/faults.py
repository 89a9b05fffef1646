"""The format of nets and of blocks of nets, and the first fault of bytes that do not keep to it, in words.

For nets/hex.py. The tests are those of docs/FORMAT.md, 2 and 3, in their order: in each field head (1), tag and length
(2), payload (1), then 4, 3, 5; at the end 6. Of several numbers in a field that are out of range, the first in the file
is named. Bytes are counted from 0, and by the whole file in a block too.
"""
import functools
import typing


def number(data, signed=False):
    return int.from_bytes(data, "big", signed=signed)


class Number(typing.NamedTuple):
    """A number of a payload: what it is, its bytes, and its range. One that may be negative is in two's complement."""

    what: str
    width: int
    least: int
    most: int

    def value(self, data, at=0):
        return number(data[at:at + self.width], self.least < 0)

    def on(self, layer):
        """The same number, named with its layer."""
        return self._replace(what=f"{self.what} on layer {layer}")


# The numbers of a payload. A layers field has them for each layer, by its edition; a node has its edge, a cost for
# each layer, and what its kind adds. Whether a parent is a good one is decided by the nodes before it, not by a range.
MOST_TIME = 10**15
UNITS = [Number("unit resistance", 2, 1, 1_000), Number("unit capacitance", 2, 1, 1_000)]
LAYERS = {1: UNITS, 7: UNITS + [Number("via resistance", 2, 0, 1_000)]}
GATE = [Number("gate resistance", 4, 0, 100_000), Number("intrinsic delay", 4, 0, 1_000_000_000)]
DRIVER = GATE + [Number("arrival time", 8, -MOST_TIME, MOST_TIME)]
PARENT = Number("parent", 2, 0, 65_535)
EDGE = [PARENT, Number("length", 2, 0, 4_000)]
COST = Number("cost", 4, 1, 1_000_000)
INPUT = Number("input capacitance", 4, 0, 100_000)
NODES = {
    3: ("Steiner point", []),
    4: ("buffer", [INPUT] + GATE),
    5: ("sink", [INPUT, Number("required time", 8, -MOST_TIME, MOST_TIME)]),
}
DRIVER_TAG, BUFFER_TAG, SINK_TAG = 2, 4, 5

MOST_LAYERS = 16
MOST_NODES = 255  # after the driver
MOST_BUFFERS = 63  # 64 stages with the driver's
MOST_CHILDREN = 2

# The bytes of a field's head: its tag, and two that say how long its payload is.
HEAD = 3

# A block: the tag of a net's field, the longest payload that two bytes can say, and the longest block.
NET_TAG = 6
MOST_PAYLOAD = 65_535
MOST_BLOCK = 65_536


def width_of(described):
    """The bytes that some numbers take together."""
    return sum(each.width for each in described)


@functools.lru_cache(maxsize=None)
def numbers_of(tag, layers):
    """The numbers of a payload in their order: of a field of this tag, in a net of so many layers."""
    if tag in LAYERS:
        return [each.on(layer) for layer in range(layers) for each in LAYERS[tag]]
    if tag == DRIVER_TAG:
        return DRIVER
    return EDGE + [COST.on(layer) for layer in range(layers)] + NODES[tag][1]


@functools.lru_cache(maxsize=None)
def due(place, layers):
    """The tags that may stand at a place (0 layers, 1 driver, then nodes), each with its lengths of payload."""
    if place == 0:
        widths = {tag: width_of(described) for tag, described in LAYERS.items()}
        return {tag: range(width, MOST_LAYERS * width + 1, width) for tag, width in widths.items()}
    lengths = {tag: width_of(numbers_of(tag, layers)) for tag in ([DRIVER_TAG] if place == 1 else NODES)}
    return {tag: range(length, length + 1) for tag, length in lengths.items()}


class Fault(Exception):
    """The first fault: the refusal, the field in words, the byte, what is wrong there, and perhaps what may help."""

    def __init__(self, refusal, name, at, what, hint="", missing=False):
        super().__init__(what)
        self.refusal, self.name, self.at, self.what, self.hint = refusal, name, at, what, hint
        # Where bytes are missing, `at` is the byte that would come next, and the line of the last one is told.
        self.shown = at - 1 if missing else at

    def told(self, lines):
        """A line, then perhaps a hint. Where a text was read, `lines` has for each byte the line that says it."""
        line = "" if lines is None else f", line {lines[self.shown] if lines else 1} of the text"
        first = f"refused {self.refusal}: {self.name}, byte {self.at}{line}: {self.what}"
        return [first, self.hint] if self.hint else [first]


class Node(typing.NamedTuple):
    """A node that was read: its name in words, its tag, the byte at which its field begins, its children so far."""

    name: str
    tag: int
    at: int
    children: list


def counted(count, what):
    return f"{count} {what}" if count == 1 else f"{count} {what}s"


def either(tags):
    """Some tags in words: 3, 4 or 5."""
    *first, last = map(str, tags)
    return f"{', '.join(first)} or {last}" if first else last


def all_there(name, start, part, size, end):
    """The head of the field that begins at a byte, or its payload, does not go beyond the end (1)."""
    found = end - start if part == "head" else end - start - HEAD
    if found >= size:
        return
    what = f"the field from byte {start} on ends here, with {found} of the {size} bytes of its {part}"
    too_many = f", or {counted(found, 'byte')} too many" if part == "head" and found > 0 else ""
    hint = "cut short" + too_many if end > 0 else "empty: no net, but a block of no nets"
    raise Fault(1, name, end, what, hint, missing=True)


def length_words(tag, lengths, layers):
    """Which lengths of payload are due."""
    if len(lengths) > 1:
        return f"a multiple of {lengths.step} from {lengths[0]} to {lengths[-1]}"
    return f"{lengths[0]} with {counted(layers, 'layer')}" if tag in NODES else str(lengths[0])


def field(data, at, end, name, allowed, layers=0):
    """The field that is due at a byte: head (1), tag and length (2), payload (1). Its name, tag and payload length."""
    all_there(name, at, "head", HEAD, end)
    tag, length = data[at], number(data[at + 1:at + HEAD])
    if tag not in allowed:
        second = tag in LAYERS and SINK_TAG in allowed
        hint = "a second net? nets/hex.py block makes one file of several" if second else ""
        raise Fault(2, name, at, f"tag is {tag}, due is {either(allowed)}", hint)
    name += f", {NODES[tag][0]}" if tag in NODES else ""
    if length not in allowed[tag]:
        what = f"payload length is {length}, due is {length_words(tag, allowed[tag], layers)}"
        raise Fault(2, name, at + 1, what)
    all_there(name, at, "payload", length, end)
    return name, tag, length


def in_range(data, at, name, described):
    """Each of these numbers, from a byte on, is in its range (3)."""
    for each in described:
        value = each.value(data, at)
        if not each.least <= value <= each.most:
            what = f"{each.what} is {value:,}, allowed are {each.least:,} to {each.most:,}"
            negative = each.least >= 0 and value >= 1 << (8 * each.width - 1)
            raise Fault(3, name, at, what, "a negative number? only times may be negative" if negative else "")
        at += each.width


def has_room(nodes, node):
    """It is no 256th node after the driver and no 64th buffer (4)."""
    if len(nodes) > MOST_NODES:
        raise Fault(4, node.name, node.at, f"a {MOST_NODES + 1}th node after the driver, allowed are {MOST_NODES}")
    if node.tag == BUFFER_TAG and buffers(nodes) == MOST_BUFFERS:
        raise Fault(4, node.name, node.at, f"a {MOST_BUFFERS + 1}th buffer, allowed are {MOST_BUFFERS}")


def buffers(nodes):
    return sum(node.tag == BUFFER_TAG for node in nodes)


def hang(nodes, node, parent):
    """Puts a node below its parent, which has a lower number, is no sink and has fewer than two children (5)."""
    if parent >= len(nodes):
        why = "not below the node's own number"
        hint = "the driver is node 0; the others count from 1, in the order of the file"
    elif nodes[parent].tag == SINK_TAG:
        why, hint = "a sink", ""
    elif len(nodes[parent].children) == MOST_CHILDREN:
        why = "which has two children already, nodes " + " and ".join(map(str, nodes[parent].children))
        hint = "a Steiner point in the place of one of them makes room"
    else:
        nodes[parent].children.append(len(nodes))
        return
    raise Fault(5, node.name, node.at + HEAD, f"parent is {parent}, {why}", hint)


def all_driving(nodes):
    """Every node but a sink has a child (6)."""
    childless = [node for node in nodes if node.tag != SINK_TAG and not node.children]
    if not childless:
        return
    first, others = childless[0], len(childless) - 1
    nor = f", nor {'has' if others == 1 else 'have'} {counted(others, 'other node')}" if others else ""
    raise Fault(6, first.name, first.at, f"has no child{nor}", "only a sink may have none")


def read_net(data, at, end):
    """The nodes and the number of layers of the net in some bytes of a file. Its first fault is raised."""
    name, tag, length = field(data, at, end, "layers", due(0, 0))
    layers = length // width_of(LAYERS[tag])
    in_range(data, at + HEAD, name, numbers_of(tag, layers))
    at += HEAD + length
    name, tag, length = field(data, at, end, "node 0, driver", due(1, layers))
    in_range(data, at + HEAD, name, DRIVER)
    nodes = [Node(name, tag, at, [])]
    at += HEAD + length
    while at < end:
        name, tag, length = field(data, at, end, f"node {len(nodes)}", due(2, layers), layers)
        node = Node(name, tag, at, [])
        has_room(nodes, node)
        in_range(data, at + HEAD, name, numbers_of(tag, layers))
        hang(nodes, node, PARENT.value(data, at + HEAD))
        nodes.append(node)
        at += HEAD + length
    all_driving(nodes)
    return nodes, layers


def read_block(data):
    """Where the nets of a block begin and end. Its first fault is raised, with 13 for its number."""
    nets, at, allowed = [], 0, {NET_TAG: range(MOST_PAYLOAD + 1)}
    if len(data) > MOST_BLOCK:
        raise Fault(13, "block", MOST_BLOCK, f"{len(data):,} bytes, allowed are {MOST_BLOCK:,}")
    while at < len(data):
        try:
            _, _, length = field(data, at, len(data), f"net {len(nets) + 1} of the block", allowed)
        except Fault as fault:
            fault.refusal = 13
            raise
        nets.append((at + HEAD, at + HEAD + length))
        at += HEAD + length
    return nets


def net_told(data, at, end, lines=None):
    """Whether the net in some bytes of a file is accepted, and what is said of it, line by line."""
    try:
        nodes, layers = read_net(data, at, end)
    except Fault as fault:
        return False, fault.told(lines)
    counts = [counted(len(nodes), "node"), counted(1 + buffers(nodes), "stage"), counted(layers, "layer")]
    return True, ["accepted: " + ", ".join(counts) + ("" if lines is None else ", read as text")]


def block_told(data, lines=None):
    """The same of a block: a line for each net, without hints."""
    try:
        nets = read_block(data)
    except Fault as fault:
        return False, fault.told(lines)
    said, all_accepted = [], True
    for count, (at, end) in enumerate(nets, 1):
        accepted, words = net_told(data, at, end, lines)
        where = f"bytes {at} to {end - 1}" if at < end else f"no bytes at byte {at}"
        said.append(f"net {count} of the block, {where}: {words[0]}")
        all_accepted = all_accepted and accepted
    return all_accepted, said


def explained(data, lines=None):
    """The same of a file: a block if it begins with the tag of one, else a net. `lines` is for a file that is text."""
    return block_told(data, lines) if data[:1] == bytes([NET_TAG]) else net_told(data, 0, len(data), lines)
