"""Figures put into a document whose words are written by hand."""

BEGIN, END = "<!-- figures -->\n", "<!-- end of figures -->\n"


def replace_figures(path, figures):
    """Replaces what stands between the two marks and leaves the words around them."""
    with open(path, encoding="utf-8") as file:
        before, rest = file.read().split(BEGIN)
    with open(path, "w", encoding="utf-8") as file:
        file.write(before + BEGIN + "\n" + figures + "\n" + END + rest.split(END)[1])
