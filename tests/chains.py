"""Images of 16 segments of 256 blocks, by the formats of docs/SPECIFICATION.md: one checkpoint with one file
in the root, whose nodes are a chain as an older version wrote it. It may be longer than a file can be.

All blocks are used, in logs of 30 blocks at most. What stands in them is the payload: a block and the node
of the root, two blocks and the node of the file of inodes, the nodes of the file, and its data. The number
of payload block P is P + 1; the payload blocks behind these have none."""
import struct

BLOCK = 1024
SEGMENTS, BLOCKS = 16, 256
TOTAL = SEGMENTS * BLOCKS

# The blocks of a log with its summary, how many logs a segment has, and how many payload blocks.
LOG = 31
LOGS = -(-BLOCKS // LOG)
PAYLOAD = BLOCKS - LOGS

# Where the parts of the image begin.
SEGMENT_ENTRIES = BLOCK
NUMBER_ENTRIES = SEGMENT_ENTRIES + 16 * SEGMENTS
CHECKPOINT_ENTRIES = NUMBER_ENTRIES + 24 * TOTAL
FIRST_BLOCK = -(-(CHECKPOINT_ENTRIES + 160) // BLOCK) * BLOCK

# Payload blocks.
DIRECTORY, DIRECTORY_NODE, INODES, INODES_NODE, FILE = 0, 1, 2, 4, 5

NO_END = 2**64 - 1
# The slots of data in a node of a chain. The last slot has the next node.
SLOTS = 127


def block_of(payload):
    """The block that has a payload block."""
    segment, position = divmod(payload, PAYLOAD)
    return segment * BLOCKS + position + position // (LOG - 1) + 1


def page(block):
    return FIRST_BLOCK + BLOCK * block


def page_of(payload):
    return page(block_of(payload))


class ChainImage:
    """The image of a file with so many nodes. All slots of these name data, or one of the last node alone."""

    def __init__(self, nodes, is_full):
        self.nodes = nodes
        self.slots = range(SLOTS * nodes) if is_full else [SLOTS * (nodes - 1)]
        self.used = FILE + nodes + len(self.slots)
        self.bytes = bytearray(page(TOTAL))
        self.put_tables()
        self.put_logs()
        self.put_inodes()
        self.put_file()

    def put(self, place, form, *values):
        struct.pack_into("<" + form, self.bytes, place, *values)

    def put_tables(self):
        """The superblock, the segments, the checkpoint and the numbers."""
        self.put(0, "8sIIQ", b"NLVOL001", SEGMENTS, BLOCKS, 1)
        for segment in range(SEGMENTS):
            self.put(SEGMENT_ENTRIES + 16 * segment, "QII", 0, BLOCKS, 2)
        # Number, stamp, flags and inodes in use; and the inode of the file of inodes.
        self.put(CHECKPOINT_ENTRIES, "QQQQ", 1, 0, 0, 2)
        self.put(CHECKPOINT_ENTRIES + 32, "BB6xQQ", 3, 1, 2 * BLOCK, INODES_NODE + 1)
        for payload in range(self.used):
            self.put(NUMBER_ENTRIES + 24 * payload, "QQQ", block_of(payload), 1, NO_END)

    def put_logs(self):
        """The summaries. Of a record there is the number alone."""
        for segment in range(SEGMENTS):
            for position in range(0, BLOCKS, LOG):
                count = min(LOG - 1, BLOCKS - position - 1)
                self.put(page(segment * BLOCKS + position), "4sI", b"NLSG", count)
        for payload in range(SEGMENTS * PAYLOAD):
            segment, position = divmod(block_of(payload), BLOCKS)
            summary = segment * BLOCKS + position - position % LOG
            self.put(page(summary) + 32 + 32 * (position % LOG), "Q", payload + 1)

    def put_slot(self, node, slot, payload):
        self.put(page_of(node) + 8 * slot, "Q", payload + 1)

    def put_inode(self, inode, kind, size, node):
        place = page_of(INODES + inode // 8) + 128 * (inode % 8)
        self.put(place, "BB6xQQ", kind, 1, size, node + 1)

    def put_inodes(self):
        """The nodes of the root and of the file of inodes, and the inodes 2 and 11."""
        self.put_slot(DIRECTORY_NODE, 0, DIRECTORY)
        self.put_slot(INODES_NODE, 0, INODES)
        self.put_slot(INODES_NODE, 1, INODES + 1)
        self.put_inode(2, 2, BLOCK, DIRECTORY_NODE)
        self.put_inode(11, 1, BLOCK * (self.slots[-1] + 1), FILE)

    def put_file(self):
        """The record of the file, its chain, and the numbers of its data, whose blocks are zeros."""
        self.put(page_of(DIRECTORY), "IBB1s", 11, 1, 1, b"a")
        for node in range(self.nodes - 1):
            self.put_slot(FILE + node, SLOTS, FILE + node + 1)
        for k, index in enumerate(self.slots):
            self.put_slot(FILE + index // SLOTS, index % SLOTS, FILE + self.nodes + k)


def image_of(nodes, is_full):
    """The bytes of the image of such a file."""
    return bytes(ChainImage(nodes, is_full).bytes)
