"""What the program says of a fault after its line, from tests/sentences.txt: a fault's first words, a tab, and the sentence."""
import os

FILE = os.path.join(os.path.dirname(os.path.abspath(__file__)), "sentences.txt")
with open(FILE, encoding="utf-8") as it:
    SENTENCES = dict(line.rstrip("\n").split("\t") for line in it)


def sentence_of(fault):
    """The line of the note after a fault, as "P4 NotRegular"; nothing if that depends on more than its first words."""
    for words, sentence in SENTENCES.items():
        if f"{fault} ".startswith(f"{words} "):
            return f"jffs2_image: note: {sentence}\n"
    return ""


def lines_of(fault):
    """All that standard error is told of a fault that is told by its first words."""
    return f"jffs2_image: {fault}\n{sentence_of(fault)}"
