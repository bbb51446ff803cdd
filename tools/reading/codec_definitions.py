"""What each codec string gives, in Python: a reading of the definitions apart from the program's code.

Linear PCM and the two laws of ITU-T G.711, FLAC by RFC 9639, and raw video (docs/DEFINITIONS.md). A coder takes inputs by
`push` and gives units; `drain` gives what is left. `Refused` says that the definition takes no such input.

Units are tuples: ("audio", format, rate, channels, frames, timestamp, bytes), ("video", format, width, height, timestamp,
duration, bytes) and ("chunk", is_key, timestamp, duration, bytes). A chunk that is decoded is (is_key, timestamp, duration,
bytes); a medium that is encoded is a unit of the first two kinds.
"""

MOST_TIMESTAMP = 2**63 - 1
MOST_BLOCK_BYTES = 2**61


class Refused(Exception):
    pass


def duration_of(frames, rate):
    return frames * 1000000 // rate


# ---- samples

SAMPLE_BYTES = {"u8": 1, "s16": 2, "s32": 4}


def plain(form):
    return form.split("-")[0]


def sample_of(form, data):
    """The signed value of a sample by its bytes."""
    return data[0] - 128 if plain(form) == "u8" else int.from_bytes(data, "little", signed=True)


def bytes_of(form, value):
    size = SAMPLE_BYTES[plain(form)]
    return bytes([value + 128]) if size == 1 else value.to_bytes(size, "little", signed=True)


def depth_of(form):
    return 8 * SAMPLE_BYTES[plain(form)]


def resized(value, before, after):
    return value << (after - before) if after >= before else value >> (before - after)


def samples_of(form, channels, frames, data):
    """The samples frame by frame, each a list of one value a channel."""
    size = SAMPLE_BYTES[plain(form)]
    if form.endswith("planar"):
        return [[sample_of(form, data[(c * frames + i) * size:(c * frames + i + 1) * size]) for c in range(channels)] for i in range(frames)]
    return [[sample_of(form, data[(i * channels + c) * size:(i * channels + c + 1) * size]) for c in range(channels)] for i in range(frames)]


# ---- A-law and mu-law

def ulaw_value(code):
    u = 255 - code
    magnitude = ((8 * (u % 16) + 132) << (u // 16 % 8)) - 132
    return -magnitude if u & 128 else magnitude


def alaw_value(code):
    x = code ^ 0x55
    exponent, mantissa = x // 16 % 8, x % 16
    magnitude = 16 * mantissa + 8 if exponent == 0 else (16 * mantissa + 264) << (exponent - 1)
    return magnitude if x & 128 else -magnitude


def ulaw_code(value):
    magnitude = min(-value if value < 0 else value, 32635)
    for exponent in range(8):
        for mantissa in range(16):
            if ((8 * mantissa + 128) << exponent) - 132 <= magnitude < ((8 * mantissa + 136) << exponent) - 132:
                return 255 - ((128 if value < 0 else 0) + 16 * exponent + mantissa)
    raise AssertionError(value)


def alaw_code(value):
    magnitude = -value - 1 if value < 0 else value
    for exponent in range(8):
        for mantissa in range(16):
            low, high = (16 * mantissa, 16 * mantissa + 16) if exponent == 0 else ((16 * mantissa + 256) << (exponent - 1), (16 * mantissa + 272) << (exponent - 1))
            if low <= magnitude < high:
                return ((0 if value < 0 else 128) + 16 * exponent + mantissa) ^ 0x55
    raise AssertionError(value)


ULAW_CODES, ALAW_CODES = {}, {}


def law_code(codec, value):
    table, code = (ULAW_CODES, ulaw_code) if codec == "ulaw" else (ALAW_CODES, alaw_code)
    if value not in table:
        table[value] = code(value)
    return table[value]


# ---- linear PCM and the laws, both ways

WIDTHS = {"pcm-u8": 1, "pcm-s16": 2, "pcm-s24": 3, "pcm-s32": 4, "alaw": 1, "ulaw": 1}
DECODED = {"pcm-u8": "u8", "pcm-s16": "s16", "pcm-s24": "s32", "pcm-s32": "s32", "alaw": "s16", "ulaw": "s16"}


class SampleDecoder:
    def __init__(self, config):
        self.codec, self.rate, self.channels = config["codec"], config["rate"], config["channels"]

    def push(self, chunk):
        _, timestamp, _, data = chunk
        width = WIDTHS[self.codec]
        if len(data) % (width * self.channels) or len(data) // (width * self.channels) > 4294967295:
            raise Refused
        frames = len(data) // (width * self.channels)
        if not frames:
            return []
        if self.codec in ("pcm-u8", "pcm-s16", "pcm-s32"):
            out = data
        elif self.codec == "pcm-s24":
            out = b"".join(b"\0" + data[i:i + 3] for i in range(0, len(data), 3))
        else:
            value = ulaw_value if self.codec == "ulaw" else alaw_value
            out = b"".join(value(code).to_bytes(2, "little", signed=True) for code in data)
        return [("audio", DECODED[self.codec], self.rate, self.channels, frames, timestamp, out)]

    def drain(self):
        return []


def fitting(medium, config):
    """The frames of sound that is encoded, which has to be of the config's rate and channels."""
    if medium[0] != "audio":
        raise Refused
    _, form, rate, channels, frames, timestamp, data = medium
    if rate != config["rate"] or channels != config["channels"]:
        raise Refused
    return samples_of(form, channels, frames, data), depth_of(form), timestamp


class SampleEncoder:
    def __init__(self, config):
        self.config = config

    def push(self, medium):
        rows, depth, timestamp = fitting(medium, self.config)
        codec, out = self.config["codec"], bytearray()
        for row in rows:
            for value in row:
                if codec in ("alaw", "ulaw"):
                    out.append(law_code(codec, resized(value, depth, 16)))
                elif codec == "pcm-u8":
                    out.append(resized(value, depth, 8) + 128)
                else:
                    width = WIDTHS[codec]
                    out += resized(value, depth, 8 * width).to_bytes(width, "little", signed=True)
        return [("chunk", True, timestamp, duration_of(len(rows), self.config["rate"]), bytes(out))]

    def drain(self):
        return []


# ---- bits, and the sums of FLAC

class Bits:
    def __init__(self, data):
        self.text, self.length, self.at = int.from_bytes(data, "big"), 8 * len(data), 0

    def take(self, count):
        if self.at + count > self.length:
            raise Refused
        self.at += count
        return (self.text >> (self.length - self.at)) & ((1 << count) - 1)

    def signed(self, count):
        value = self.take(count)
        return value - (1 << count) if count and value >> (count - 1) else value

    def unary(self):
        zeros = 0
        while not self.take(1):
            zeros += 1
        return zeros


def remainder(data, width, polynomial):
    rest = 0
    for byte in data:
        rest ^= byte << (width - 8)
        for _ in range(8):
            rest = (rest << 1) ^ (polynomial if rest >> (width - 1) & 1 else 0)
            rest &= (1 << width) - 1
    return rest


def crc8(data):
    return remainder(data, 8, 0x07)


def crc16(data):
    return remainder(data, 16, 0x8005)


def read_streaminfo(description):
    """The stream that a FLAC description tells, or None."""
    if description is None or description[:4] != b"fLaC" or len(description) < 42 or description[4] & 127 or description[5:8] != b"\0\0\x22":
        return None
    bits = Bits(description[8:42])
    info = dict(zip(("min_block", "max_block", "min_frame", "max_frame", "rate"), (bits.take(16), bits.take(16), bits.take(24), bits.take(24), bits.take(20))))
    info["channels"], info["depth"], info["total"] = bits.take(3) + 1, bits.take(5) + 1, bits.take(36)
    return None if info["rate"] == 0 or info["depth"] < 4 else info


# ---- FLAC frames, read

BLOCKS = {1: 192, 2: 576, 3: 1152, 4: 2304, 5: 4608, 8: 256, 9: 512, 10: 1024, 11: 2048, 12: 4096, 13: 8192, 14: 16384, 15: 32768}
RATES = {1: 88200, 2: 176400, 3: 192000, 4: 8000, 5: 16000, 6: 22050, 7: 24000, 8: 32000, 9: 44100, 10: 48000, 11: 96000}
DEPTHS = {1: 8, 2: 12, 4: 16, 5: 20, 6: 24, 7: 32}


def read_coded_number(bits):
    first = bits.take(8)
    if first < 128:
        return
    ones = 0
    while ones < 8 and first >> (7 - ones) & 1:
        ones += 1
    if not 2 <= ones <= 7:
        raise Refused
    for _ in range(ones - 1):
        if bits.take(2) != 2:
            raise Refused
        bits.take(6)


def read_header(bits, data, info):
    if bits.take(15) != 0b111111111111100:
        raise Refused
    bits.take(1)
    block, rate, channels, depth = bits.take(4), bits.take(4), bits.take(4), bits.take(3)
    if bits.take(1) or block == 0 or rate == 15 or channels > 10 or depth == 3:
        raise Refused
    read_coded_number(bits)
    size = BLOCKS.get(block) or (bits.take(8) if block == 6 else bits.take(16)) + 1
    if size == 65536:
        raise Refused
    hertz = RATES.get(rate)
    if rate == 0:
        hertz = info["rate"]
    elif rate == 12:
        hertz = 1000 * bits.take(8)
    elif rate == 13:
        hertz = bits.take(16)
    elif rate == 14:
        hertz = 10 * bits.take(16)
    end = bits.at // 8
    if bits.take(8) != crc8(data[:end]):
        raise Refused
    count = channels + 1 if channels < 8 else 2
    bit_depth = info["depth"] if depth == 0 else DEPTHS[depth]
    if (hertz, count, bit_depth) != (info["rate"], info["channels"], info["depth"]):
        raise Refused
    return size, channels, count, bit_depth


def read_residual(bits, block, order):
    method = bits.take(2)
    if method > 1:
        raise Refused
    width = 4 + method
    partitions = bits.take(4)
    if block % (1 << partitions) or block >> partitions <= order:
        raise Refused
    values = []
    for part in range(1 << partitions):
        count = (block >> partitions) - (order if part == 0 else 0)
        parameter = bits.take(width)
        if parameter == (1 << width) - 1:
            plain_width = bits.take(5)
            found = [bits.signed(plain_width) for _ in range(count)]
        else:
            found = []
            for _ in range(count):
                z = (bits.unary() << parameter) + bits.take(parameter)
                found.append(z // 2 if z % 2 == 0 else -(z + 1) // 2)
        if any(not -2**31 < value < 2**31 for value in found):
            raise Refused
        values += found
    return values


FIXED = ([], [1], [2, -1], [3, -3, 1], [4, -6, 4, -1])


def read_subframe(bits, block, depth):
    if bits.take(1):
        raise Refused
    kind, wasted = bits.take(6), bits.take(1)
    wasted = bits.unary() + 1 if wasted else 0
    depth -= wasted
    if depth < 1:
        raise Refused
    if kind == 0:
        samples = [bits.signed(depth)] * block
    elif kind == 1:
        samples = [bits.signed(depth) for _ in range(block)]
    elif 8 <= kind <= 12 or kind >= 32:
        order = kind - 8 if kind < 32 else kind - 31
        if order > block:
            raise Refused
        samples, shift, coefficients = [bits.signed(depth) for _ in range(order)], 0, FIXED[order] if kind < 32 else None
        if kind >= 32:
            precision = bits.take(4) + 1
            if precision == 16:
                raise Refused
            shift = bits.signed(5)
            if shift < 0:
                raise Refused
            coefficients = [bits.signed(precision) for _ in range(order)]
        for value in read_residual(bits, block, order):
            samples.append((sum(k * samples[-1 - i] for i, k in enumerate(coefficients)) >> shift) + value)
            if not -(1 << (depth - 1)) <= samples[-1] < 1 << (depth - 1):
                raise Refused
    else:
        raise Refused
    return [sample << wasted for sample in samples]


def read_frame(data, info):
    """The samples of the one frame that these bytes are, channel by channel."""
    if len(data) >= MOST_BLOCK_BYTES:
        raise Refused
    bits = Bits(data)
    block, mode, count, depth = read_header(bits, data, info)
    side = {8: 1, 9: 0, 10: 1}.get(mode)
    channels = [read_subframe(bits, block, depth + (side == c)) for c in range(count)]
    while bits.at % 8:
        if bits.take(1):
            raise Refused
    end = bits.at // 8
    if bits.take(16) != crc16(data[:end]) or bits.at != bits.length:
        raise Refused
    a, b = (channels + [None])[:2]
    if mode == 8:
        channels = [a, [x - y for x, y in zip(a, b)]]
    elif mode == 9:
        channels = [[x + y for x, y in zip(a, b)], b]
    elif mode == 10:
        twice = [2 * x + y % 2 for x, y in zip(a, b)]
        channels = [[(t + y) // 2 for t, y in zip(twice, b)], [(t - y) // 2 for t, y in zip(twice, b)]]
    if any(not -(1 << (depth - 1)) <= x < 1 << (depth - 1) for channel in channels for x in channel):
        raise Refused
    return channels, depth


class FlacDecoder:
    def __init__(self, config):
        self.info = read_streaminfo(config["description"])

    def push(self, chunk):
        _, timestamp, _, data = chunk
        channels, depth = read_frame(data, self.info)
        size = 16 if depth <= 16 else 32
        out = b"".join((x << (size - depth)).to_bytes(size // 8, "little", signed=True) for row in zip(*channels) for x in row)
        return [("audio", "s16" if size == 16 else "s32", self.info["rate"], len(channels), len(channels[0]), timestamp, out)]

    def drain(self):
        return []


# ---- FLAC blocks, written

class Written:
    def __init__(self):
        self.text, self.length = 0, 0

    def put(self, value, count):
        self.text, self.length = (self.text << count) | (value & ((1 << count) - 1)), self.length + count

    def pad(self):
        self.put(0, -self.length % 8)

    def bytes(self):
        return self.text.to_bytes(self.length // 8, "big")


def zigzag(value):
    return 2 * value if value >= 0 else -2 * value - 1


def residual_of(samples, order):
    coefficients = FIXED[order]
    return [samples[i] - sum(k * samples[i - 1 - j] for j, k in enumerate(coefficients)) for i in range(order, len(samples))]


def plan_of(residual, block, order, partitions):
    """The parameters of a partition order, and their bits."""
    size, at, parameters, bits = block >> partitions, 0, [], 0
    for part in range(1 << partitions):
        count = size - (order if part == 0 else 0)
        values = [zigzag(x) for x in residual[at:at + count]]
        at += count
        lengths = [sum(z >> k for z in values) + (1 + k) * count for k in range(15)]
        best = min(range(15), key=lambda k: lengths[k])
        parameters.append(best)
        bits += 4 + lengths[best]
    return parameters, bits


def candidates(samples, depth, level):
    """Each candidate as (length in bits, kind, order, partition order, parameters, residual), in order."""
    block = len(samples)
    if all(x == samples[0] for x in samples):
        yield 8 + depth, "constant", 0, 0, None, None
    yield 8 + depth * block, "verbatim", 0, 0, None, None
    for order in range(min(level, 4, block) + 1):
        residual = residual_of(samples, order)
        if any(not -2**31 < x < 2**31 for x in residual):
            continue
        for partitions in range(min(level, 6) + 1):
            if block % (1 << partitions) == 0 and block >> partitions > order:
                parameters, bits = plan_of(residual, block, order, partitions)
                yield 8 + depth * order + 6 + bits, "fixed", order, partitions, parameters, residual


def best_candidate(samples, depth, level):
    return min(candidates(samples, depth, level), key=lambda it: it[0])


def write_subframe(out, samples, depth, choice):
    _, kind, order, partitions, parameters, residual = choice
    out.put({"constant": 0, "verbatim": 1}.get(kind, 8 + order) << 1, 8)
    if kind == "constant":
        out.put(samples[0], depth)
        return
    for x in samples if kind == "verbatim" else samples[:order]:
        out.put(x, depth)
    if kind == "fixed":
        out.put(0, 2)
        out.put(partitions, 4)
        size, at = len(samples) >> partitions, 0
        for part, k in enumerate(parameters):
            out.put(k, 4)
            count = size - (order if part == 0 else 0)
            for x in residual[at:at + count]:
                z = zigzag(x)
                out.put(0, z >> k)
                out.put(1, 1)
                out.put(z, k)
            at += count


def write_coded_number(out, number):
    if number < 128:
        out.put(number, 8)
        return
    size = next(n for n in range(2, 8) if number < 1 << (5 * n + 1))
    out.put(((1 << size) - 1) << 1, size + 1) if size < 7 else out.put(0b11111110, 8)
    if size < 7:
        out.put(number >> (6 * (size - 1)), 7 - size)
    for i in reversed(range(size - 1)):
        out.put(2, 2)
        out.put(number >> (6 * i), 6)


def best_block(channels, depth, level):
    """The mode's code, and its channels with their depths and choices."""
    plain_ones = [(x, depth, best_candidate(x, depth, level)) for x in channels]
    if len(channels) != 2 or depth >= 32 or level < 2:
        return len(channels) - 1, plain_ones
    left, right = channels
    mid, side = [(x + y) >> 1 for x, y in zip(left, right)], [x - y for x, y in zip(left, right)]
    m, s = (mid, depth, best_candidate(mid, depth, level)), (side, depth + 1, best_candidate(side, depth + 1, level))
    ways = [(1, plain_ones), (8, [plain_ones[0], s]), (9, [s, plain_ones[1]]), (10, [m, s])]
    return min(ways, key=lambda way: sum(it[2][0] for it in way[1]))


def write_block(channels, depth, level, rate, number):
    block, out = len(channels[0]), Written()
    mode, parts = best_block(channels, depth, level)
    block_code = next((k for k, v in BLOCKS.items() if v == block), 6 if block <= 256 else 7)
    out.put(0b1111111111111000, 16)
    out.put(block_code, 4)
    out.put(next((k for k, v in RATES.items() if v == rate), 0), 4)
    out.put(mode, 4)
    out.put(next(k for k, v in DEPTHS.items() if v == depth), 3)
    out.put(0, 1)
    write_coded_number(out, number % 2**31)
    if block_code in (6, 7):
        out.put(block - 1, 8 if block_code == 6 else 16)
    out.put(crc8(out.bytes()), 8)
    for samples, bits, choice in parts:
        write_subframe(out, samples, bits, choice)
    out.pad()
    out.put(crc16(out.bytes()), 16)
    return out.bytes()


def block_size(config):
    return config["block_size"] or 4096


def stream_description(config):
    out = Written()
    for value, count in ((0x664C6143, 32), (0x80000022, 32), (block_size(config), 16), (block_size(config), 16), (0, 48), (config["rate"], 20), (config["channels"] - 1, 3), (config["depth"] - 1, 5), (0, 36), (0, 128)):
        out.put(value, count)
    return out.bytes()


class FlacEncoder:
    """Keeps the frames since the last drain that no block has taken, each input's frames with its timestamp."""

    def __init__(self, config):
        self.config, self.rows, self.starts, self.number = config, [], [], 0

    def block(self, count):
        rows, self.rows = self.rows[:count], self.rows[count:]
        timestamp, offset = self.starts[0]
        depth, rate = self.config["depth"], self.config["rate"]
        data = write_block([list(it) for it in zip(*rows)], depth, self.config["level"], rate, self.number)
        self.number += 1
        self.starts = self.starts[count:]
        return ("chunk", True, min(timestamp + duration_of(offset, rate), MOST_TIMESTAMP), duration_of(count, rate), data)

    def push(self, medium):
        rows, depth, timestamp = fitting(medium, self.config)
        self.rows += [[resized(x, depth, self.config["depth"]) for x in row] for row in rows]
        self.starts += [(timestamp, i) for i in range(len(rows))]
        size, out = block_size(self.config), []
        while len(self.rows) >= size:
            out.append(self.block(size))
        return out

    def drain(self):
        out = [self.block(len(self.rows))] if self.rows else []
        self.number = 0
        return out


# ---- raw video

PICTURES = {"x-raw-i420": "I420", "x-raw-i422": "I422", "x-raw-i444": "I444", "x-raw-nv12": "NV12"}


def planes(form, width, height):
    """Each plane's bytes a row, rows, and sub-sampling across and down; a pair of NV12 is two bytes."""
    w2, h2 = (width + 1) // 2, (height + 1) // 2
    luma = (width, height, 1, 1, 1)
    if form == "NV12":
        return [luma, (2 * w2, h2, 2, 2, 2)]
    chroma = {"I420": (w2, h2, 2, 2, 1), "I422": (w2, height, 2, 1, 1), "I444": (width, height, 1, 1, 1)}[form]
    return [luma, chroma, chroma]


def picture_bytes(form, width, height):
    return sum(it[0] * it[1] for it in planes(form, width, height))


class PictureDecoder:
    def __init__(self, config):
        self.form, self.width, self.height, self.last = PICTURES[config["codec"]], config["width"], config["height"], None

    def push(self, chunk):
        _, timestamp, duration, data = chunk
        if len(data) != 1 + picture_bytes(self.form, self.width, self.height) or data[0] > 1 or (data[0] == 1 and self.last is None):
            raise Refused
        self.last = data[1:] if data[0] == 0 else bytes((x + y) % 256 for x, y in zip(self.last, data[1:]))
        return [("video", self.form, self.width, self.height, timestamp, duration, self.last)]

    def drain(self):
        self.last = None
        return []


class PictureEncoder:
    def __init__(self, config):
        self.form, self.width, self.height, self.interval = PICTURES[config["codec"]], config["width"], config["height"], config["key_interval"]
        self.last, self.number = None, 0

    def push(self, medium):
        if medium[:4] != ("video", self.form, self.width, self.height):
            raise Refused
        _, _, _, _, timestamp, duration, data = medium
        key = self.number == 0 or (self.interval > 0 and self.number % self.interval == 0)
        out = b"\0" + data if key else b"\1" + bytes((x - y) % 256 for x, y in zip(data, self.last))
        self.last, self.number = data, self.number + 1
        return [("chunk", key, timestamp, duration, out)]

    def drain(self):
        self.last, self.number = None, 0
        return []


def coder_of(kind, config):
    """A coder for a codec of this kind with a config that is supported."""
    codec = config["codec"]
    if kind == "audio-decoder":
        return FlacDecoder(config) if codec == "flac" else SampleDecoder(config)
    if kind == "audio-encoder":
        return FlacEncoder(config) if codec == "flac" else SampleEncoder(config)
    return (PictureDecoder if kind == "video-decoder" else PictureEncoder)(config)
