"""Writes class sets that differ from one in a byte or two of the code, of a table of frames or of the limits of a class.

Words: the folder of the set, the folder to write to, how many, and a seed. Prints the folder and the altered class of each.
"""

import os
import random
import shutil
import struct
import sys

# Opcodes of the profile, of each group some.
OPCODES = bytes.fromhex("00010203041 01a1b1c2a2b2c3b3c4b4c2e4fbe5758595a5b5c5d5e5f606474 99a7acb0b1b2b4b5b6b7b8b9bbc0c1bfc6c7a5".replace(" ", ""))
# How many bytes a constant pool's entry has, by its tag.
ENTRIES = {3: 5, 4: 5, 5: 9, 6: 9, 7: 3, 8: 3, 9: 5, 10: 5, 11: 5, 12: 5, 15: 4, 16: 3, 18: 5}


class Layout:
    """The positions in a class file of its code, its tables of frames and the limits of its methods."""

    def __init__(self, content):
        self.content, self.at = content, 8
        self.entries = self.number(2)
        self.texts = {}
        self.code, self.frames, self.limits = [], [], []
        # The code of each method and its table of frames, by its name and descriptor.
        self.code_of, self.frames_of, self.member = {}, {}, b""
        self.pass_pool()
        self.at += 6
        self.skip(2 * self.number(2))
        for _ in range(2):
            for _ in range(self.number(2)):
                self.skip(2)
                self.member = self.texts.get(self.number(2), b"") + self.texts.get(self.number(2), b"")
                self.pass_attributes()

    def number(self, length):
        self.at += length
        return int.from_bytes(self.content[self.at - length : self.at], "big")

    def skip(self, length):
        self.at += length

    def pass_pool(self):
        index = 1
        while index < self.entries:
            tag = self.content[self.at]
            if tag == 1:
                length = struct.unpack_from(">H", self.content, self.at + 1)[0]
                self.texts[index] = self.content[self.at + 3 : self.at + 3 + length]
                self.at += 3 + length
            else:
                self.at += ENTRIES[tag]
            index += 2 if tag in (5, 6) else 1

    def pass_attributes(self):
        for _ in range(self.number(2)):
            name, length = self.texts.get(self.number(2)), self.number(4)
            end = self.at + length
            if name == b"Code":
                self.limits.append((self.at, 4))
                self.at += 4
                size = self.number(4)
                self.code.append((self.at, size))
                self.code_of[self.member] = self.code[-1]
                self.at += size
                self.skip(8 * self.number(2))
                self.pass_attributes()
            elif name == b"StackMapTable":
                self.frames.append((self.at, length))
                self.frames_of[self.member] = self.frames[-1]
            self.at = end


def alter(content, layout, draw):
    """Changes one byte: an opcode or an operand of code, of a table of frames, or of a limit."""
    kind = draw.random()
    if kind < 0.9 or not layout.frames:
        spans = layout.code if kind < 0.75 else layout.frames or layout.code
        start, length = draw.choice(spans)
        value = draw.choice(OPCODES) if kind < 0.55 else draw.randrange(1, min(layout.entries, 255)) if kind < 0.75 else draw.choice([*range(9), draw.randrange(256)])
        content[start + draw.randrange(length)] = value
    else:
        start, _ = draw.choice(layout.limits)
        content[start + draw.choice([1, 3])] = draw.randrange(6)


def main(source, target, count, seed):
    draw = random.Random(seed)
    files = sorted(os.path.relpath(os.path.join(at, name), source) for at, _, names in os.walk(source) for name in names)
    contents = {}
    for file in files:
        with open(os.path.join(source, file), "rb") as opened:
            contents[file] = opened.read()
    layouts = {file: Layout(content) for file, content in contents.items()}
    with_code = [file for file in files if layouts[file].code]
    for number in range(count):
        file = draw.choice(with_code)
        content = bytearray(contents[file])
        for _ in range(draw.choice([1, 1, 1, 2])):
            alter(content, layouts[file], draw)
        folder = os.path.join(target, str(number))
        shutil.copytree(source, folder)
        with open(os.path.join(folder, file), "wb") as opened:
            opened.write(content)
        print(folder, file.removesuffix(".class").replace("/", "."))


if __name__ == "__main__":
    main(sys.argv[1], sys.argv[2], int(sys.argv[3]), int(sys.argv[4]))
