"""Writes a sample as a constant for the tests."""
import pathlib
import re
import sys

ARRAY = re.compile(r"\[u8; (\d+)\] = \[([^\]]*)\]")


def constant(sample):
    text = sample.read_bytes()
    name = re.sub(r"\W", "_", sample.stem).upper()
    numbers = " ".join(f"0x{byte:02X}," for byte in text)
    return f"/// The bytes of samples/{sample.name}.\npub const {name}: [u8; {len(text)}] = [{numbers}];"


def arrays(source):
    """The arrays of bytes in a source, each as its bytes."""
    for length, numbers in ARRAY.findall(source.read_text()):
        found = bytes(int(number, 16) for number in re.findall(r"0x([0-9A-Fa-f]{2})\b", numbers))
        if len(found) == int(length):
            yield found


def main(doc):
    names = [pathlib.Path(name) for name in sys.argv[1:]]
    if len(names) == 1:
        print(constant(names[0]))
        return 0
    if len(names) != 2:
        print(doc, file=sys.stderr)
        return 2
    if names[0].read_bytes() in arrays(names[1]):
        return 0
    print(f"{names[1]} hasn't the bytes of {names[0]}")
    return 1
