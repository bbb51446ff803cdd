#!/usr/bin/env python3
"""Tries examples/play.c, a runtime in C over the engine with a thread for work:

    tools/play-test.py [LIBRARY [ENGINE]]

LIBRARY and ENGINE are the prefixes of tools/build-library and tools/build-engine (out/zemirako and out/zemirako_engine, if not
said). WAV files of linear PCM, A-law and mu-law, and FLAC files that examples/wav_flac.c makes, are played into WAV files,
whose samples are compared with what is wanted. That is done under the address and undefined-behaviour sanitizers, with their
search for leaks; then two files are played under valgrind's memcheck and helgrind. Files with faults end with status 1. Last
each allocation fails in turn while a WAV file and a FLAC file are played: each run ends with status 1 and its line, and leaks
nothing. Needs python3, cc and valgrind."""
import os
import random
import struct
import subprocess
import sys
import tempfile

TOP = os.path.dirname(os.path.dirname(os.path.abspath(__file__)))
FAIL = """
#include <stddef.h>
#include <stdlib.h>
/* The allocation whose number is in FAIL_ALLOC, from 1, gets nothing. */
void *__real_malloc(size_t size);
void *__real_realloc(void *at, size_t size);
static int fails(void) {
    static long asked;
    const char *number = getenv("FAIL_ALLOC");
    return __atomic_add_fetch(&asked, 1, __ATOMIC_SEQ_CST) == (number ? atol(number) : 0);
}
void *__wrap_malloc(size_t size) { return fails() ? NULL : __real_malloc(size); }
void *__wrap_realloc(void *at, size_t size) { return fails() ? NULL : __real_realloc(at, size); }
"""
CHECKED = {**os.environ, "ASAN_OPTIONS": "exitcode=23:detect_leaks=1", "UBSAN_OPTIONS": "halt_on_error=1"}


def wav(tag, bits, channels, data, rate=8000, more=b""):
    frame = channels * (bits // 8)
    head = struct.pack("<HHIIHH", tag, channels, rate, rate * frame, frame, bits) + more
    body = b"WAVEfmt " + struct.pack("<I", len(head)) + head + b"junk\3\0\0\0abc\0" + b"data" + struct.pack("<I", len(data)) + data
    return b"RIFF" + struct.pack("<I", len(body)) + body + b"\0" * (len(data) % 2)


def alaw(code):
    code ^= 0x55
    low, part = (code & 15) << 4, code >> 4 & 7
    value = low + 8 if part == 0 else low + 0x108 << part - 1
    return value if code & 0x80 else -value


def ulaw(code):
    code ^= 0xFF
    value = (((code & 15) << 3) + 0x84 << (code >> 4 & 7)) - 0x84
    return -value if code & 0x80 else value


def words(values):
    return b"".join(struct.pack("<h", it) for it in values)


def whole(data, bits, channels, rate=8000):
    """A WAV file as play writes it."""
    frame = channels * bits // 8
    head = struct.pack("<4sI8sIHHIIHH4sI", b"RIFF", 36 + len(data) + len(data) % 2, b"WAVEfmt ", 16, 1, channels, rate, rate * frame,
                       frame, bits, b"data", len(data))
    return head + data + b"\0" * (len(data) % 2)


def wider(data):
    """Samples of 24 bits as 32 bits."""
    return b"".join(b"\0" + data[i:i + 3] for i in range(0, len(data), 3))


def cases(draw):
    """Name, file, what is wanted of it."""
    data = draw.randbytes(3 * 4 * 2500)
    guid = struct.pack("<HHIH", 22, 16, 3, 1) + bytes.fromhex("000000001000800000aa00389b71")
    yield "u8", wav(1, 8, 1, data[:2501]), whole(data[:2501], 8, 1)
    yield "s16", wav(1, 16, 2, data), whole(data, 16, 2)
    yield "s24", wav(1, 24, 2, data), whole(wider(data), 32, 2)
    yield "s32", wav(1, 32, 3, data), whole(data, 32, 3)
    yield "extensible", wav(0xFFFE, 16, 2, data, more=guid), whole(data, 16, 2)
    yield "alaw", wav(6, 8, 1, data[:3000]), whole(words(map(alaw, data[:3000])), 16, 1)
    yield "ulaw", wav(7, 8, 2, data[:3000]), whole(words(map(ulaw, data[:3000])), 16, 2)
    yield "short", wav(1, 16, 1, b"\1\0"), whole(b"\1\0", 16, 1)
    yield "cut", wav(1, 16, 1, data)[:-1001], whole(data[:-1002], 16, 1)


def run(program, read, write, env=None, before=()):
    ran = subprocess.run([*before, program, read, write], env=env, stdout=subprocess.PIPE, stderr=subprocess.PIPE, text=True, timeout=120)
    return ran.returncode, ran.stderr


def build(work, library, engine):
    flags = ["cc", "-std=c11", "-Wall", "-Wextra", "-Wpedantic", "-Werror", "-g", f"-I{library}/include", f"-I{engine}/include"]
    libraries = [f"{library}/lib/libzemirako.a", f"{engine}/lib/libzemirako_engine.a", "-pthread"]
    with open(f"{work}/fail.c", "w") as out:
        out.write(FAIL)
    subprocess.run([*flags, "-O2", "-o", f"{work}/wav_flac", f"{TOP}/examples/wav_flac.c", *libraries], check=True)
    subprocess.run([*flags, "-O1", "-o", f"{work}/plain", f"{TOP}/examples/play.c", *libraries], check=True)
    subprocess.run([*flags, "-O1", "-fsanitize=address,undefined", "-fno-sanitize-recover=all", "-Wl,--wrap=malloc,--wrap=realloc", "-o",
                    f"{work}/checked", f"{TOP}/examples/play.c", f"{work}/fail.c", *libraries], check=True)


def main():
    library, engine = (sys.argv[1:] + [f"{TOP}/out/zemirako", f"{TOP}/out/zemirako_engine"][len(sys.argv) - 1:])[:2]
    draw, bad = random.Random(7), 0

    def want(name, is_so, *said):
        nonlocal bad
        if not is_so:
            print(name, "is not as wanted:", *said)
            bad += 1

    with tempfile.TemporaryDirectory() as work:
        build(work, library, engine)
        out, checked, plain = f"{work}/out.wav", f"{work}/checked", f"{work}/plain"
        files = {}
        for name, data, wanted in cases(draw):
            files[name] = data, wanted
            if name in ("u8", "s16", "s24", "s32"):  # the same as FLAC
                with open(f"{work}/in", "wb") as it:
                    it.write(data)
                subprocess.run([f"{work}/wav_flac", "encode", f"{work}/in", f"{work}/in.flac"], check=True)
                with open(f"{work}/in.flac", "rb") as it:
                    flac = it.read()
                # samples of 8 bits stand at the upper end of 16 bits
                eight = b"".join(bytes([0, it ^ 0x80]) for it in data[56:56 + 2501])
                files[f"flac {name}"] = flac, whole(eight, 16, 1) if name == "u8" else wanted
        for name, (data, wanted) in files.items():
            with open(f"{work}/{name}", "wb") as it:
                it.write(data)
            status, said = run(checked, f"{work}/{name}", out, CHECKED)
            with open(out, "rb") as it:
                want(name, (status, said) == (0, "") and it.read() == wanted, status, said[-2000:])
        print(f"{len(files)} files were played")
        for name in ("alaw", "flac s16"):
            for tool in (["--leak-check=full", "--errors-for-leak-kinds=all"], ["--tool=helgrind"]):
                status, said = run(plain, f"{work}/{name}", out, before=["valgrind", "-q", "--error-exitcode=9", *tool])
                want(f"{name} under valgrind {tool[0]}", (status, said) == (0, ""), status, said[-2000:])
        print("two of them under memcheck and helgrind")
        flac = files["flac s16"][0]
        faults = {"empty": b"", "text": b"no sound at all", "float": wav(3, 32, 1, bytes(8)), "no rate": wav(1, 16, 1, bytes(8), 0),
                  "no channels": wav(1, 16, 0, b""), "no data": wav(1, 16, 1, b""), "metadata": flac[:41], "last frame": flac[:-1],
                  "sum": flac[:90] + bytes([flac[90] ^ 1]) + flac[91:]}
        for name, data in faults.items():
            with open(f"{work}/fault", "wb") as it:
                it.write(data)
            status, said = run(checked, f"{work}/fault", out, CHECKED)
            want(f"a file with a fault, {name},", status == 1 and said.count("\n") == 1 and said.startswith("play: "), status, said[-2000:])
        for read, write in ((f"{work}/none", out), (f"{work}/s16", f"{work}/none/out"), (f"{work}/s16", "/dev/full"), (work, out)):
            status, said = run(checked, read, write, CHECKED)
            want(f"{read} into {write}", status == 1 and said.count("\n") == 1 and said.startswith("play: "), status, said[-2000:])
        print(f"{len(faults) + 4} faults were told")
        for name in ("short", "ulaw", "flac u8"):
            failed, after, messages = 0, 0, {}
            while after < 3:  # behind the last allocation nothing fails
                status, said = run(checked, f"{work}/{name}", out, {**CHECKED, "FAIL_ALLOC": str(failed + after + 1)})
                if status == 0:
                    after += 1
                    continue
                failed, after = failed + after + 1, 0
                want(f"{name} with allocation {failed} failing", status == 1 and said.count("\n") == 1 and said.startswith("play: "), status, said[-2000:])
                messages[said.strip()] = messages.get(said.strip(), 0) + 1
            print(f"{name}: {failed} allocations failed in turn:", ", ".join(f"{it} ({count})" for it, count in sorted(messages.items())))
    sys.exit(bad != 0)


if __name__ == "__main__":
    main()
