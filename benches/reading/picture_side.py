"""The states of places in a picture: for each `x y` of standard input, in pixels from its lower left, 1, 0, b or -.

Called as picture_side.py PICTURE REACH by a Python that has Pillow. A place is within where all pixels as far as REACH
from its own are bright, outside where none is, else near a border; one nearer than that to the edge is not told.
"""
import sys


def main(path: str, reach: int) -> None:
    from PIL import Image

    Image.MAX_IMAGE_PIXELS = None
    picture = Image.open(path).convert("L")
    width, height = picture.size
    pixel = picture.load()
    told = []
    for line in sys.stdin:
        x, y = map(int, line.split())
        if min(x, y) < reach or x >= width - reach or y >= height - reach:
            told.append("-")
            continue
        near = range(-reach, reach + 1)
        some = [pixel[x + i, height - 1 - y - j] > 127 for i in near for j in near]
        told.append("1" if all(some) else "b" if any(some) else "0")
    print("".join(told))


if __name__ == "__main__":
    main(sys.argv[1], int(sys.argv[2]))
