"""The pieces of ./demo that are no work of the coder: made-up data, flipped bits, a picture of the words that changed.

A word's byte k stands at capture byte 128 * (w // 8) + 8 * k + w % 8.
"""

import random
import sys

SENTENCE = b"Line coder demo, client text. "
MESSAGE = b"THE OPERATOR CHANGED THESE WORDS"  # 32 bytes, the first 256 bits of a client block
CLIENT_BITS, CLIENT_BLOCKS, PARITY = 257, 952, 2048


def load(name):
    with open(name, "rb") as file:
        return bytearray(file.read())


def save(name, data):
    with open(name, "wb") as file:
        file.write(data)


def made_up(seed, length):
    return bytearray(random.Random(seed).getrandbits(8 * length).to_bytes(length, "big"))


def place_of(w, k):
    return 128 * (w // 8) + 8 * k + w % 8


def flip(capture, w, bit):
    capture[place_of(w, bit // 8)] ^= 0x80 >> bit % 8


def make(info, parity):
    length = 2 * 152915
    save(info, (SENTENCE * (length // len(SENTENCE) + 1))[:length])
    save(parity, made_up(1, 2 * 10240))


def flip_every(capture, flipped):
    data = load(capture)
    for w in range(len(data) // 16):
        flip(data, w, (37 * w + 11) % 128)
    save(flipped, data)


def flip_two(w, capture, broken):
    data = load(capture)
    flip(data, int(w), 3)
    flip(data, int(w), 70)
    save(broken, data)


def start_of(block):
    """The byte where a client block begins; a block number that 8 divides begins with a whole byte."""
    assert int(block) % 8 == 0
    return CLIENT_BITS * int(block) // 8


def new_block(block, info, parity, bits, block_parity, new_info, new_parity):
    data, at = load(info), start_of(block)
    data[at : at + 32] = MESSAGE
    save(new_info, data)
    save(bits, MESSAGE + bytes([data[at + 32] & 0x80]))
    fresh, first = made_up(2, PARITY), PARITY * (int(block) // CLIENT_BLOCKS)
    save(block_parity, fresh)
    whole = load(parity)
    whole[first : first + PARITY] = fresh
    save(new_parity, whole)


def text(block, info):
    at = start_of(block)
    print(".." + load(info)[at - 20 : at + 52].decode("ascii") + "..")


def picture(before, after):
    """Eight words stand side by side in a capture; a mark is such a group, a row is 64 of them."""
    old, new = load(before), load(after)
    groups = [sum(any(old[128 * g + 8 * k + w] != new[128 * g + 8 * k + w] for k in range(16)) for w in range(8))
              for g in range(len(old) // 128)]
    print(f"   {sum(groups)} of {8 * len(groups)} words differ. A mark is eight words: how many of them changed, or '.'.")
    rows = [groups[at : at + 64] for at in range(0, len(groups), 64)]
    skipped = 0
    for number, row in enumerate(rows):
        if any(row) or any(map(any, rows[max(0, number - 1) : number + 2])):
            print(f"   {512 * number:6} " + "".join(str(count) if count else "." for count in row))
            skipped = 0
        else:
            if not skipped:
                print("          (rows without a change)")
            skipped += 1


if __name__ == "__main__":
    name, words = sys.argv[1], sys.argv[2:]
    {"make": make, "flip-every": flip_every, "flip-two": flip_two, "new-block": new_block, "text": text,
     "picture": picture}[name](*words)
