"""The random bytes of a job: the ChaCha20 key stream (RFC 8439, with 64 bits of counter and 64 bits of stream number)."""

LANES = 256
MASK = int.from_bytes(b"\xff\xff\xff\xff\0\0\0\0" * LANES, "little")
ROUNDS = [(0, 4, 8, 12), (1, 5, 9, 13), (2, 6, 10, 14), (3, 7, 11, 15), (0, 5, 10, 15), (1, 6, 11, 12), (2, 7, 8, 13), (3, 4, 9, 14)]


def spread(words):
    """LANES words of 32 bits as one number, each in 64 bits of it, so that sums carry into no neighbour."""
    return int.from_bytes(b"".join(word.to_bytes(8, "little") for word in words), "little")


def quarter(state, a, b, c, d):
    """The quarter round of RFC 8439, 2.1, in all lanes."""
    for into, by, turn, bits in ((a, b, d, 16), (c, d, b, 12), (a, b, d, 8), (c, d, b, 7)):
        state[into] = (state[into] + state[by]) & MASK
        mixed = state[turn] ^ state[into]
        state[turn] = rotate(mixed, bits)


def rotate(value, bits):
    """Each lane of 32 bits rotated to the left; a lane has 64 bits, of which the upper half is zeros."""
    shifted = value << bits
    return (shifted & MASK) | ((shifted >> 32) & MASK)


def blocks_from(seed, number, first):
    """The bytes of LANES blocks of the key stream, from this block on."""
    words = [0x61707865, 0x3320646E, 0x79622D32, 0x6B206574]
    words += [int.from_bytes(seed[at:at + 4], "little") for at in range(0, 32, 4)]
    counters = [(first + lane) % 2 ** 64 for lane in range(LANES)]
    start = [spread([word] * LANES) for word in words]
    start += [spread([counter & 0xFFFFFFFF for counter in counters]), spread([counter >> 32 for counter in counters])]
    start += [spread([number & 0xFFFFFFFF] * LANES), spread([number >> 32] * LANES)]
    state = list(start)
    for _ in range(10):
        for places in ROUNDS:
            quarter(state, *places)
    return interleaved([(one + other) & MASK for one, other in zip(state, start)])


def interleaved(state):
    """The blocks one after another, each of 16 words with the low byte first."""
    out = bytearray(64 * LANES)
    for place, value in enumerate(state):
        lanes = value.to_bytes(8 * LANES, "little")
        for byte in range(4):
            out[4 * place + byte::64] = lanes[byte::8]
    return bytes(out)


class Stream:
    """The bytes of the stream of a session and a job, in order from the first on."""

    def __init__(self, seed, session, job):
        self.seed, self.number = seed, session * 2 ** 32 + job
        self.block, self.ready, self.taken = 0, b"", 0

    def take(self, count):
        """The next bytes."""
        while len(self.ready) < count:
            self.ready += blocks_from(self.seed, self.number, self.block)
            self.block += LANES
        result, self.ready = self.ready[:count], self.ready[count:]
        self.taken += count
        return result
