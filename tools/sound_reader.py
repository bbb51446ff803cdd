#!/usr/bin/env python3
"""Reads WAV and native FLAC files and chunk files as the program must (docs/FORMATS.md, "WAV and FLAC files").

    tools/sound_reader.py FILE ..
        for each file the line of `wcrun probe`, or that of the fault

It was written from the rules and not from the program, so that tools/sound-files.py can compare the two.
"""
import struct
import sys

CODECS = {(1, 8): "pcm-u8", (1, 16): "pcm-s16", (1, 24): "pcm-s24", (1, 32): "pcm-s32", (6, 8): "alaw", (7, 8): "ulaw"}


class Fault(Exception):
    """What the program says of the file, after `script: chunks NAME `."""


# ---- chunk files

def read_chunks(data):
    agree = 0
    while agree < 4 and agree < len(data) and data[agree] == b"WCC1"[agree]:
        agree += 1
    if agree < 4:
        raise Fault("bad mark at %d" % agree)
    at, count = 4, 0
    while at < len(data):
        for size, is_flag in ((1, True), (8, False), (1, True), (8, False), (4, False)):
            if at + size > len(data):
                raise Fault("short at %d" % at)
            if is_flag and data[at] > 1:
                raise Fault("bad kind at %d" % at)
            at += size
        size = int.from_bytes(data[at - 4:at], "big")
        if at + size > len(data):
            raise Fault("short at %d" % at)
        at, count = at + size, count + 1
    return "chunks %d" % count


# ---- WAV files

def read_format(data, at, size):
    """The codec, rate, channels and bytes of a frame of the `fmt ` part at this place."""
    body = data[at + 8:at + 8 + size]
    if len(body) < size or size < 16:
        raise Fault("bad wav at %d" % at)
    tag, channels, rate, _, frame, bits = struct.unpack_from("<HHIIHH", body)
    if tag == 0xFFFE:
        if size < 40:
            raise Fault("bad wav at %d" % at)
        tag = int.from_bytes(body[24:26], "little")
    if (tag, bits) not in CODECS:
        raise Fault("wav tag %d bits %d" % (tag, bits))
    if channels == 0 or rate == 0 or frame != channels * bits // 8:
        raise Fault("bad wav at %d" % at)
    return CODECS[tag, bits], rate, channels, frame


def read_wav(data, per_chunk=1024):
    """The head of the line, and the chunks: timestamp, duration, bytes."""
    if data[:4] != b"RIFF":
        raise Fault("bad wav at 0")
    if data[8:12] != b"WAVE":
        raise Fault("bad wav at 8")
    at, form = 12, None
    while at < len(data):
        if at + 8 > len(data):
            raise Fault("bad wav at %d" % at)
        size = int.from_bytes(data[at + 4:at + 8], "little")
        if data[at:at + 4] == b"data":
            if form is None:
                raise Fault("bad wav at %d" % at)
            return wav_chunks(form, data[at + 8:at + 8 + size], per_chunk)
        if data[at:at + 4] == b"fmt " and form is None:
            form = read_format(data, at, size)
        at += 8 + size + size % 2
    raise Fault("bad wav at %d" % len(data))


def wav_chunks(form, samples, per_chunk):
    codec, rate, channels, size = form
    frames, chunks = len(samples) // size, []
    for first in range(0, frames, per_chunk):
        count = min(per_chunk, frames - first)
        part = samples[first * size:(first + count) * size]
        chunks.append((first * 1000000 // rate, count * 1000000 // rate, part))
    return "wav %s %d %d chunks %d frames %d" % (codec, rate, channels, len(chunks), frames), chunks


# ---- FLAC files (RFC 9639)

class Refused(Exception):
    """No frame stands here."""


def table(width, low):
    rows = []
    for byte in range(256):
        total = byte << (width - 8)
        for _ in range(8):
            total = (total << 1) ^ low if total >> (width - 1) else total << 1
            total &= (1 << width) - 1
        rows.append(total)
    return rows


CRC8, CRC16 = table(8, 0x07), table(16, 0x8005)


def crc8(data):
    total = 0
    for byte in data:
        total = CRC8[total ^ byte]
    return total


def crc16(data):
    total = 0
    for byte in data:
        total = ((total << 8) & 0xFFFF) ^ CRC16[(total >> 8) ^ byte]
    return total


class Bits:
    def __init__(self, data, at):
        self.data, self.at, self.end = data, at * 8, len(data) * 8

    def read(self, count):
        end = self.at + count
        if end > self.end:
            raise Refused
        whole = int.from_bytes(self.data[self.at >> 3:(end + 7) >> 3], "big")
        self.at = end
        return (whole >> (-end % 8)) & ((1 << count) - 1)

    def signed(self, count):
        value = self.read(count)
        return value - (1 << count) if count and value >> (count - 1) else value

    def zeros(self):
        """How many zeros stand before the next one, which is read too."""
        start = self.at
        while self.at < self.end:
            count = 8 - self.at % 8
            window = self.data[self.at >> 3] & ((1 << count) - 1)
            if window:
                self.at += count - window.bit_length() + 1
                return self.at - 1 - start
            self.at += count
        raise Refused


def need(is_so):
    if not is_so:
        raise Refused


RATES = {1: 88200, 2: 176400, 3: 192000, 4: 8000, 5: 16000, 6: 22050, 7: 24000, 8: 32000, 9: 44100, 10: 48000, 11: 96000}
DEPTHS = {1: 8, 2: 12, 4: 16, 5: 20, 6: 24, 7: 32}


def read_number(bits):
    first = bits.read(8)
    leading = 8 - (first ^ 0xFF).bit_length()
    need(leading == 0 or leading >= 2 and first != 0xFF)
    for _ in range(1, leading):
        need(bits.read(8) >> 6 == 2)


def read_header(bits, info):
    """The block size, and the mode: a count of channels, or one of 8 to 10."""
    begins = bits.at // 8
    need(bits.read(15) == 0x7FFC)
    bits.read(1)
    size, rate, mode, depth = bits.read(4), bits.read(4), bits.read(4), bits.read(3)
    need(bits.read(1) == 0)
    need(size != 0 and rate != 15 and mode <= 10 and depth != 3)
    read_number(bits)
    if size == 6:
        block = bits.read(8) + 1
    elif size == 7:
        block = bits.read(16) + 1
        need(block != 65536)
    else:
        block = 192 if size == 1 else 144 << size if size <= 5 else 1 << size
    if rate == 0:
        hertz = info["rate"]
    elif rate == 12:
        hertz = bits.read(8) * 1000
    elif rate == 13:
        hertz = bits.read(16)
    elif rate == 14:
        hertz = bits.read(16) * 10
    else:
        hertz = RATES[rate]
    need(hertz == info["rate"])
    need((2 if mode >= 8 else mode + 1) == info["channels"])
    need(depth == 0 or DEPTHS[depth] == info["depth"])
    head = bits.data[begins:bits.at // 8]
    need(bits.read(8) == crc8(head))
    return block, mode


def read_residual(bits, block, order):
    method = bits.read(2)
    need(method <= 1)
    wide = 4 + method
    splits = bits.read(4)
    need(block % (1 << splits) == 0 and block >> splits > order)
    values = []
    for part in range(1 << splits):
        count = (block >> splits) - (order if part == 0 else 0)
        parameter = bits.read(wide)
        if parameter == (1 << wide) - 1:
            width = bits.read(5)
            for _ in range(count):
                value = bits.signed(width)
                need(-(2**31) < value < 2**31)
                values.append(value)
        else:
            for _ in range(count):
                folded = (bits.zeros() << parameter) + bits.read(parameter)
                value = -(folded >> 1) - 1 if folded & 1 else folded >> 1
                need(-(2**31) < value < 2**31)
                values.append(value)
    return values


FIXED = ((), (1,), (2, -1), (3, -3, 1), (4, -6, 4, -1))


def read_subframe(bits, block, depth):
    need(bits.read(1) == 0)
    kind = bits.read(6)
    wasted = bits.zeros() + 1 if bits.read(1) else 0
    depth -= wasted
    need(depth >= 1)
    if kind == 0:
        samples = [bits.signed(depth)] * block
    elif kind == 1:
        samples = [bits.signed(depth) for _ in range(block)]
    else:
        need(8 <= kind <= 12 or kind >= 32)
        order = kind - 8 if kind <= 12 else kind - 31
        need(order <= block)
        samples = [bits.signed(depth) for _ in range(order)]
        shift, factors = 0, FIXED[order] if kind <= 12 else ()
        if kind >= 32:
            precision = bits.read(4) + 1
            need(precision != 16)
            shift = bits.signed(5)
            need(shift >= 0)
            factors = [bits.signed(precision) for _ in range(order)]
        for rest in read_residual(bits, block, order):
            last = samples[:-order - 1:-1] if order else ()
            value = (sum(f * s for f, s in zip(factors, last)) >> shift) + rest
            need(-(1 << (depth - 1)) <= value < 1 << (depth - 1))
            samples.append(value)
    return [it << wasted for it in samples]


def read_frame(data, at, info):
    """The samples of a frame and where it ends."""
    bits = Bits(data, at)
    block, mode = read_header(bits, info)
    count, depth = info["channels"], info["depth"]
    side = {8: 1, 9: 0, 10: 1}.get(mode)
    rows = [read_subframe(bits, block, depth + (n == side)) for n in range(count)]
    need(bits.read(-bits.at % 8) == 0)
    end = bits.at // 8
    need(bits.read(16) == crc16(data[at:end]))
    if mode == 8:
        rows[1] = [a - b for a, b in zip(*rows)]
    elif mode == 9:
        rows[0] = [a + b for a, b in zip(*rows)]
    elif mode == 10:
        twice = [2 * a + (b & 1) for a, b in zip(*rows)]
        rows = [[(t + s) >> 1 for t, s in zip(twice, rows[1])], [(t - s) >> 1 for t, s in zip(twice, rows[1])]]
    for row in rows:
        need(all(-(1 << (depth - 1)) <= it < 1 << (depth - 1) for it in row))
    return rows, end + 2


def read_description(data):
    if data[:4] != b"fLaC" or len(data) < 42 or data[4] & 127 or data[5:8] != b"\0\0\x22":
        raise Fault("bad flac at 0")
    whole = int.from_bytes(data[8:42], "big")
    info = {"rate": whole >> 172 & 0xFFFFF, "channels": (whole >> 169 & 7) + 1, "depth": (whole >> 164 & 31) + 1}
    if info["rate"] == 0 or info["depth"] < 4:
        raise Fault("bad flac at 0")
    return info


def read_flac(data):
    """The head of the line, and the chunks: timestamp, duration, bytes."""
    info = read_description(data)
    at, is_last = 4, False
    while not is_last:
        if at + 4 > len(data):
            raise Fault("bad flac at %d" % at)
        is_last, size = data[at] >= 128, int.from_bytes(data[at + 1:at + 4], "big")
        if at + 4 + size > len(data):
            raise Fault("bad flac at %d" % at)
        at += 4 + size
    frames, chunks = 0, []
    while at < len(data):
        try:
            rows, end = read_frame(data, at, info)
        except Refused:
            raise Fault("bad flac at %d" % at)
        block = len(rows[0])
        chunks.append((min(frames * 1000000 // info["rate"], 2**63 - 1), block * 1000000 // info["rate"], data[at:end]))
        frames, at = frames + block, end
    said = (info["rate"], info["channels"], len(chunks), frames, data[:42].hex())
    return "flac flac %d %d chunks %d frames %d %s" % said, chunks


def line_of(data):
    """The line of `probe`, or what is said after `script: chunks NAME `, and the status."""
    try:
        if data[:4] == b"RIFF":
            return read_wav(data)[0], 0
        if data[:4] == b"fLaC":
            return read_flac(data)[0], 0
        return read_chunks(data), 0
    except Fault as fault:
        return str(fault), 3


def main():
    for name in sys.argv[1:]:
        with open(name, "rb") as it:
            line, status = line_of(it.read())
        print(line if status == 0 else "script: chunks %s %s" % (name, line))


if __name__ == "__main__":
    main()
