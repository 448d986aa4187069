"""print_file.py IMAGE BLOCK PATH: prints a file of an image, of a compressed one too."""

import sys

import jffs2

with open(sys.argv[1], "rb") as file:
    image = jffs2.Image(file.read(), int(sys.argv[2]), through=True)
sys.stdout.buffer.write(image.read(sys.argv[3]))
