"""Images made field by field, of which no text was compiled."""

import struct

BOOL, UINT8, UINT16, UINT32 = range(4)
PUBLIC, SECRET = range(2)

ADD_ONE = 0x00100093  # addi x1, x0, 1
FOREVER = 0x0000006F  # jal x0, 0
ECALL = 0x00000073

# Loops without end. One works on registers alone, one keeps its counter in the frame, and one loads and stores
# in half of its steps, words, halves and bytes.
COUNT_IN_REGISTERS = [
    0x00128293,  # addi x5, x5, 1
    0x0055C5B3,  # xor x11, x11, x5
    0xFE029CE3,  # bne x5, x0, -8
]
COUNT_IN_FRAME = [
    0x00012283,  # lw x5, 0(x2)
    0x00128293,  # addi x5, x5, 1
    0x00512023,  # sw x5, 0(x2)
    0xFF5FF06F,  # jal x0, -12
]
MOVE_IN_FRAME = [
    0x00012283,  # lw x5, 0(x2)
    0x00128293,  # addi x5, x5, 1
    0x00512023,  # sw x5, 0(x2)
    0x0055C5B3,  # xor x11, x11, x5
    0x00014303,  # lbu x6, 0(x2)
    0x006585B3,  # add x11, x11, x6
    0x00B11123,  # sh x11, 2(x2)
    0xFE5FF06F,  # jal x0, -28
]


def parameter(offset, kind=UINT32, label=SECRET, form=0, length=1):
    return struct.pack("<BBBHI", kind, label, form, length, offset)


def result(offset, kind=UINT32, label=SECRET):
    return struct.pack("<BBBI", 1, kind, label, offset)


def image(parameters=(), returned=b"\0", frame=0, steps=2, words=(ADD_ONE, ECALL), count=None, profile=1):
    head = b"FACI" + struct.pack("<HHH", 1, profile, len(parameters))
    tail = struct.pack("<IQI", frame, steps, len(words) if count is None else count)
    return head + b"".join(parameters) + returned + tail + struct.pack(f"<{len(words)}I", *words)


def looping(words, steps):
    """An image without arguments that loops for so many steps; then its budget is used up."""
    return image(frame=4, steps=steps, words=words)


class Fields:
    """Reads an image field by field, and keeps the first fault, as a command prints it."""

    def __init__(self, data):
        self.data, self.at, self.fault = data, 0, None

    def blame(self, text):
        self.fault = self.fault or f"{text.split(':')[0]} at byte {self.at}:{text.split(':')[1]}"

    def number(self, size, allowed, otherwise="B5: field out of range"):
        """The next field, a number of so many bytes; 0 where there is a fault already."""
        field = self.data[self.at : self.at + size]
        value = int.from_bytes(field, "little")
        if len(field) < size:
            self.blame("B4: truncated")
        elif not allowed(value):
            self.blame(otherwise)
        self.at += 0 if self.fault else size
        return 0 if self.fault else value

    def slot(self, low):
        """A parameter, whose slot is not below the one before: where it ends."""
        kind = self.number(1, lambda value: value <= UINT32)
        self.number(1, lambda value: value <= SECRET)
        form = self.number(1, lambda value: value <= 2)
        length = self.number(2, lambda value: 1 <= value <= (4_096 if form else 1))
        offset = self.number(4, lambda value: value % 4 == 0 and value >= low)
        taken = length * (1, 1, 2, 4)[kind] if form else 4
        return offset + (taken + 3) // 4 * 4


def first_fault(data):
    """The first fault of bytes that are read as an image, None where they spell one."""
    fields = Fields(data)
    fields.number(4, lambda value: value == int.from_bytes(b"FACI", "little"), "B1: magic")
    fields.number(2, lambda value: value == 1, "B2: version")
    fields.number(2, lambda value: 1 <= value <= 2, "B3: profile")
    end = 0
    for _ in range(fields.number(2, lambda value: value <= 8_192)):
        end = fields.slot(end) if fields.fault is None else end
    if fields.number(1, lambda value: value <= 1):
        fields.number(1, lambda value: value <= UINT32)
        fields.number(1, lambda value: value <= SECRET)
        end = fields.number(4, lambda value: value % 4 == 0 and value >= end) + 4
    fields.number(4, lambda value: value % 4 == 0 and end <= value <= 65_536)
    fields.number(8, lambda value: 1 <= value <= 137_438_953_536)
    for _ in range(fields.number(4, lambda value: 1 <= value <= 192_064)):
        if fields.fault is None:
            fields.number(4, lambda value: True)
    if fields.fault is None and fields.at < len(data):
        fields.blame("B6: trailing bytes")
    return fields.fault


def labels(data):
    """The labels of the parameters of an image."""
    count = struct.unpack_from("<H", data, 8)[0]
    return [data[11 + 9 * place] for place in range(count)]


def layout(data):
    """The offsets of the slots of an image, that of its result, None where there is none, and the bytes of its frame."""
    count = struct.unpack_from("<H", data, 8)[0]
    offsets = [struct.unpack_from("<I", data, 15 + 9 * place)[0] for place in range(count)]
    behind = 10 + 9 * count
    if data[behind]:
        return offsets, struct.unpack_from("<I", data, behind + 3)[0], struct.unpack_from("<I", data, behind + 7)[0]
    return offsets, None, struct.unpack_from("<I", data, behind + 1)[0]
