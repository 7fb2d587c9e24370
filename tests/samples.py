#!/usr/bin/env python3
"""Writes a sample image to standard output, from the layout of document 01 alone.

    tests/samples.py p2 > crates/listing/stdin

With no name it lists the samples. Words are 64 bits, lowest byte first; a block is 64 words.
"""
import struct
import sys

MARK = 0x4D494C4B31


def laid_out(blocks):
    """The words of an image as laying out leaves it: the superblock, with first log block 1, and an empty block 1."""
    words = [0] * (64 * blocks)
    words[0], words[1] = MARK, 1
    return words


def entry(v, b, n, u, point=0):
    """The entry that maps n virtual blocks from v on to the blocks from b on, the last with u bytes used."""
    return v | b << 16 | n << 32 | u << 40 | point << 50


def put_bytes(words, at, text):
    """The bytes of the image from byte `at` on become the text."""
    for k, x in enumerate(text):
        i, j = divmod(at + k, 8)
        words[i] = words[i] & ~(255 << 8 * j) | x << 8 * j


def logged(blocks, slots):
    """A laid-out image with these words in the slots of its log block."""
    words = laid_out(blocks)
    for slot, word in slots.items():
        words[64 + slot] = word
    return words


def image_bytes(words):
    """The bytes of these words, the lowest of each first."""
    return struct.pack(f'<{len(words)}Q', *words)


def p2():
    words = logged(4, {2: entry(0, 2, 2, 2, point=3)})
    put_bytes(words, 2 * 512 + 510, b'\x41\x42\x43\x44')
    return words


def p4():
    words = p2()
    put_bytes(words, 3 * 512 + 2, b'\x01')
    return words


def p7():
    words = laid_out(8)
    words[64] = 1
    return words


SAMPLES = {
    'p1': ('four blocks, laid out', lambda: laid_out(4)),
    'p2': ('point 3 wrote 41 42 43 44 at offset 510', p2),
    'p4': ('the same with a byte past the end: refused 9', p4),
    'p5': ('used bytes 512', lambda: logged(8, {2: entry(0, 2, 1, 512)})),
    'p5-513': ('used bytes 513: refused 7', lambda: logged(8, {2: entry(0, 2, 1, 513)})),
    'p5-0': ('used bytes 0: refused 7', lambda: logged(8, {2: entry(0, 2, 1, 0)})),
    'p6': ('virtual blocks 253 to 255', lambda: logged(8, {2: entry(253, 2, 3, 512)})),
    'p6-254': ('virtual blocks 254 to 256: refused 7', lambda: logged(8, {2: entry(254, 2, 3, 512)})),
    'p7': ('the log block is its own next: refused 5', p7),
    'p8': ('slot 3 filled, slot 2 empty: refused 6', lambda: logged(8, {3: entry(0, 2, 1, 512)})),
}


def main():
    if len(sys.argv) != 2 or sys.argv[1] not in SAMPLES:
        sys.exit(__doc__ + '\n' + '\n'.join(f'    {name:8} {text}' for name, (text, _) in SAMPLES.items()))
    sys.stdout.buffer.write(image_bytes(SAMPLES[sys.argv[1]][1]()))


if __name__ == '__main__':
    main()
