"""DES, triple DES and AES-128 (FIPS 46-3, FIPS 197), a block at a time."""

from __future__ import annotations

from typing import List, Sequence

INITIAL = [(57 if i < 32 else 56) - 8 * (i % 8) + 2 * (i // 8 % 4) for i in range(64)]
EXPANSION = [(4 * (i // 6) + i % 6 - 1) % 32 for i in range(48)]
PERMUTATION = (15, 6, 19, 20, 28, 11, 27, 16, 0, 14, 22, 25, 4, 17, 30, 9, 1, 7, 23, 13, 31, 26, 2, 8, 18, 12, 29, 5, 21, 10, 3, 24)
CHOICE_1 = (56, 48, 40, 32, 24, 16, 8, 0, 57, 49, 41, 33, 25, 17, 9, 1, 58, 50, 42, 34, 26, 18, 10, 2, 59, 51, 43, 35,
            62, 54, 46, 38, 30, 22, 14, 6, 61, 53, 45, 37, 29, 21, 13, 5, 60, 52, 44, 36, 28, 20, 12, 4, 27, 19, 11, 3)
CHOICE_2 = (13, 16, 10, 23, 0, 4, 2, 27, 14, 5, 20, 9, 22, 18, 11, 3, 25, 7, 15, 6, 26, 19, 12, 1,
            40, 51, 30, 36, 46, 54, 29, 39, 50, 44, 32, 47, 43, 48, 38, 55, 33, 52, 45, 41, 49, 35, 28, 31)
SHIFTS = (1, 1, 2, 2, 2, 2, 2, 2, 1, 2, 2, 2, 2, 2, 2, 1)
# Four rows of sixteen in each box, as FIPS 46-3 has them.
BOXES = (
    "E4D12FB83A6C59070F74E2D1A6CB953841E8D62BFC973A50FC8249175B3EA06D",
    "F18E6B34972DC05A3D47F28EC01A69B50E7BA4D158C6932FD8A13F42B67C05E9",
    "A09E63F51DC7B428D709346A285ECBF1D6498F30B12C5AE71AD069874FE3B52C",
    "7DE3069A1285BC4FD8B56F03472C1AE9A690CB7DF13E52843F06A1D8945BC72E",
    "2C417AB6853FD0E9EB2C47D150FA3986421BAD78F9C5630EB8C71E2D6F09A453",
    "C1AF92680D34E75BAF427C9561DE0B389EF528C3704A1DB6432C95FABE17608D",
    "4B2EF08D3C975A61D0B7491AE35C2F8614BDC37EAF6805926BD814A7950FE23C",
    "D2846FB1A93E50C71FD8A374C56B0E927B419CE206ADF35821E74A8DFC90356B",
)


def bits_of(content: bytes) -> List[int]:
    """Returns the bits of bytes, the first bit first."""
    return [byte >> (7 - i) & 1 for byte in content for i in range(8)]


def bytes_of(bits: Sequence[int]) -> bytes:
    """Returns the bytes of bits."""
    return int("".join(map(str, bits)), 2).to_bytes(len(bits) // 8, "big")


def round_keys(key: bytes) -> List[List[int]]:
    """Returns the sixteen keys of DES."""
    bits = bits_of(key)
    left, right = [bits[i] for i in CHOICE_1[:28]], [bits[i] for i in CHOICE_1[28:]]
    keys = []
    for shift in SHIFTS:
        left, right = left[shift:] + left[:shift], right[shift:] + right[:shift]
        keys.append([(left + right)[i] for i in CHOICE_2])
    return keys


def des(block: bytes, key: bytes, is_inverse: bool = False) -> bytes:
    """Returns a block of 8 bytes, enciphered or deciphered by DES."""
    bits = bits_of(block)
    left, right = [bits[i] for i in INITIAL[:32]], [bits[i] for i in INITIAL[32:]]
    keys = round_keys(key)
    for its in reversed(keys) if is_inverse else keys:
        mixed = [right[i] ^ bit for i, bit in zip(EXPANSION, its)]
        found: List[int] = []
        for box in range(8):
            a, b, c, d, e, f = mixed[6 * box:6 * box + 6]
            value = int(BOXES[box][32 * a + 16 * f + 8 * b + 4 * c + 2 * d + e], 16)
            found += [value >> 3 & 1, value >> 2 & 1, value >> 1 & 1, value & 1]
        left, right = right, [left[i] ^ found[PERMUTATION[i]] for i in range(32)]
    last = right + left
    whole = [0] * 64
    for place, source in enumerate(INITIAL):
        whole[source] = last[place]
    return bytes_of(whole)


def triple_des(block: bytes, key: bytes, is_inverse: bool = False) -> bytes:
    """Returns a block of 8 bytes, enciphered or deciphered by triple DES with two keys."""
    first, second = key[:8], key[8:]
    return des(des(des(block, first, is_inverse), second, not is_inverse), first, is_inverse)


def doubled(byte: int) -> int:
    """Returns twice a byte in the field of AES."""
    return byte << 1 ^ (0x11B if byte & 0x80 else 0)


def product(left: int, right: int) -> int:
    """Returns the product of two bytes in the field of AES."""
    found = 0
    while right:
        found, left, right = found ^ (left if right & 1 else 0), doubled(left), right >> 1
    return found


def substitution() -> List[int]:
    """Returns the table of SubBytes: the inverse in the field, and a sum of its rotations."""
    table = []
    for byte in range(256):
        inverse = next((it for it in range(256) if product(byte, it) == 1), 0)
        turned = [(inverse << i | inverse >> (8 - i)) & 0xFF for i in range(5)]
        table.append(turned[0] ^ turned[1] ^ turned[2] ^ turned[3] ^ turned[4] ^ 0x63)
    return table


TABLE: List[int] = []


def schedule(key: bytes) -> List[List[int]]:
    """Returns the eleven keys of AES-128."""
    TABLE.extend([] if TABLE else substitution())
    words, power = [list(key[4 * i:4 * i + 4]) for i in range(4)], 1
    for i in range(4, 44):
        word = list(words[-1])
        if i % 4 == 0:
            word = [TABLE[it] for it in word[1:] + word[:1]]
            word[0], power = word[0] ^ power, doubled(power)
        words.append([a ^ b for a, b in zip(words[i - 4], word)])
    return [sum(words[4 * i:4 * i + 4], []) for i in range(11)]


def mixed_columns(state: List[int], factors: Sequence[int]) -> List[int]:
    """Returns the state with each column multiplied by a polynomial of these factors."""
    found = []
    for place in range(16):
        column, row = state[place - place % 4:place - place % 4 + 4], place % 4
        found.append(0)
        for i in range(4):
            found[-1] ^= product(column[i], factors[(i - row) % 4])
    return found


def aes(block: bytes, key: bytes, is_inverse: bool = False) -> bytes:
    """Returns a block of 16 bytes, enciphered or deciphered by AES-128."""
    keys = schedule(key)
    rounds = list(reversed(keys)) if is_inverse else keys
    state = [a ^ b for a, b in zip(block, rounds[0])]
    for number in range(1, 11):
        if is_inverse:
            state = [state[(i - 4 * (i % 4)) % 16] for i in range(16)]
            state = [a ^ b for a, b in zip((TABLE.index(it) for it in state), rounds[number])]
            state = mixed_columns(state, (14, 11, 13, 9)) if number < 10 else state
        else:
            state = [TABLE[state[(i + 4 * (i % 4)) % 16]] for i in range(16)]
            state = mixed_columns(state, (2, 3, 1, 1)) if number < 10 else state
            state = [a ^ b for a, b in zip(state, rounds[number])]
    return bytes(state)
