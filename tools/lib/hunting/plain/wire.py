"""The bytes of values, and what is wrong with bytes that are none: docs/FORMATS.md. A type says how its values are put and read."""

import hashlib


class Malformed(Exception):
    """The first fault of bytes: the place of its item, and its kind."""

    def __init__(self, at, why):
        super().__init__(f"malformed at {at} why {why}")
        self.at, self.why = at, why


class Bytes:
    """A place in bytes that are read."""

    def __init__(self, data):
        self.data, self.at = data, 0

    def take(self, count):
        if self.at + count > len(self.data):
            raise Malformed(self.at, 1)
        self.at += count
        return self.data[self.at - count : self.at]

    def uleb(self):
        """A length or the number of a variant: seven bits a byte, in the fewest bytes, of 32 bits at most."""
        value, start = 0, self.at
        for place in range(5):
            if start + place >= len(self.data):
                raise Malformed(start, 1)
            byte = self.data[start + place]
            value |= (byte & 0x7F) << (7 * place)
            if value > 0xFFFFFFFF or (place == 4 and byte > 0x7F):
                raise Malformed(start, 4)
            if byte < 0x80:
                if place and not byte:
                    raise Malformed(start, 3)
                self.at = start + place + 1
                return value
        raise Malformed(start, 4)

    def length(self):
        start, value = self.at, self.uleb()
        if value > 0x7FFFFFFF:
            raise Malformed(start, 5)
        return value


def uleb(value):
    """The fewest bytes of a length or of the number of a variant."""
    found = b""
    while value > 0x7F:
        found += bytes([value & 0x7F | 0x80])
        value >>= 7
    return found + bytes([value])


class Int:
    def __init__(self, size):
        self.size = size

    def put(self, value):
        return value.to_bytes(self.size, "little")

    def read(self, it):
        return int.from_bytes(it.take(self.size), "little")


class Bool:
    def put(self, value):
        return bytes([value])

    def read(self, it):
        byte = it.take(1)[0]
        if byte > 1:
            raise Malformed(it.at - 1, 2)
        return bool(byte)


class Fixed:
    """32 bytes as they are."""

    def put(self, value):
        return value

    def read(self, it):
        return it.take(32)


class Blob:
    """Bytes with their length, which are one item."""

    def put(self, value):
        return uleb(len(value)) + value

    def read(self, it):
        start, length = it.at, it.length()
        if it.at + length > len(it.data):
            raise Malformed(start, 1)
        return it.take(length)


class List:
    def __init__(self, item):
        self.item = item

    def put(self, values):
        return uleb(len(values)) + b"".join(self.item.put(it) for it in values)

    def read(self, it):
        return tuple(self.item.read(it) for _ in range(it.length()))


class Option:
    def __init__(self, item):
        self.item = item

    def put(self, value):
        return b"\0" if value is None else b"\1" + self.item.put(value)

    def read(self, it):
        return self.item.read(it) if Bool().read(it) else None


class Struct:
    def __init__(self, *fields):
        self.fields = fields

    def put(self, values):
        return b"".join(field.put(value) for field, value in zip(self.fields, values))

    def read(self, it):
        return tuple(field.read(it) for field in self.fields)


class Enum:
    """Variants by their numbers: the name, and the types of the fields. A value is a tuple of the name and the fields."""

    def __init__(self, variants):
        self.variants = variants
        self.numbers = {name: (number, Struct(*fields)) for number, (name, *fields) in variants.items()}

    def put(self, value):
        number, fields = self.numbers[value[0]]
        return uleb(number) + fields.put(value[1:])

    def read(self, it):
        start, number = it.at, it.uleb()
        if number not in self.variants:
            raise Malformed(start, 6)
        name, *fields = self.variants[number]
        return (name, *Struct(*fields).read(it))


U8, U16, U32, U64, BOOL, FIXED, BLOB = Int(1), Int(2), Int(4), Int(8), Bool(), Fixed(), Blob()
REF = Struct(FIXED, U64, FIXED)
OWNER = Enum({0: ("address", FIXED), 1: ("shared", U64), 2: ("frozen",)})
CONTENT = Enum({0: ("coin", U64, U64), 1: ("cap", U64, U64), 2: ("counter", U64), 3: ("vault", U64, U64), 4: ("key", FIXED), 5: ("limit", U64)})
KIND = Enum({number: (name[0],) for number, name in CONTENT.variants.items()})
OBJECT = Struct(FIXED, U64, OWNER, CONTENT)
INPUT = Enum({0: ("pure", BLOB), 1: ("owned", REF), 2: ("immutable", REF), 3: ("shared", FIXED, U64, BOOL)})
ARGUMENT = Enum({0: ("gas",), 1: ("input", U16), 2: ("result", U16), 3: ("nested", U16, U16)})
ARGUMENTS = List(ARGUMENT)
COMMAND = Enum({0: ("call", U8, ARGUMENTS), 1: ("transfer", ARGUMENTS, ARGUMENT), 2: ("split", ARGUMENT, ARGUMENTS), 3: ("merge", ARGUMENT, ARGUMENTS), 5: ("vec", KIND, ARGUMENTS)})
TX = Struct(U64, FIXED, REF, U64, List(INPUT), List(COMMAND))
SIGNED = Struct(TX, FIXED)
ORIGINS = List(Option(FIXED))
SEALS = List(Struct(U32, FIXED))
CERTIFICATE = Struct(TX, ORIGINS, SEALS)
STATEMENT = Enum({0: ("vote", U64, FIXED, ORIGINS), 1: ("end", U64), 2: ("checkpoint", U64, U64, FIXED), 3: ("ack", U64, FIXED, FIXED)})
ENTRY = Enum({0: ("certificate", TX, ORIGINS, SEALS), 1: ("end", U32, STATEMENT, FIXED), 2: ("commit",)})
SIGNER = Enum({0: ("member", U32), 1: ("user", FIXED)})
STATUS = Enum({0: ("done",), 1: ("failed", U16, U8), 2: ("aborted", U16, U8)})
EFFECTS = Struct(FIXED, STATUS, U64, U64, U32, List(Struct(FIXED, OWNER, FIXED)), List(FIXED))

ZERO = bytes(32)
SECRET = b"\x5a" * 32


def decoded(kind, data):
    """The value that bytes are, all of them."""
    it = Bytes(data)
    value = kind.read(it)
    if it.at < len(data):
        raise Malformed(it.at, 7)
    return value


def digest(tag, *parts):
    """SHA-256 of a tag and of bytes."""
    return hashlib.sha256(bytes([tag]) + b"".join(parts)).digest()


def address_of(name):
    return digest(0x41, name.encode())


def genesis_id(number):
    return digest(0x47, U64.put(number))


def created_id(tx, number):
    return digest(0x49, tx, U64.put(number))


def object_digest(it):
    return digest(0x4F, OBJECT.put(it))


def effects_digest(it):
    return digest(0x45, EFFECTS.put(it))


def tx_digest(spelling):
    return digest(0x54, spelling)


def seal(signer, spelling):
    return digest(0x53, SECRET, SIGNER.put(signer), spelling)


def member_seal(member, statement):
    return seal(("member", member), STATEMENT.put(statement))


def spoiled(made):
    """32 bytes whose first byte has its last bit turned."""
    return bytes([made[0] ^ 1]) + made[1:]
