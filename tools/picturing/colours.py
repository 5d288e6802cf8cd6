"""The colour of each number of a drop: the same in every report, and none of those of verdicts.

They were chosen by computer, each as far from all others and from the colours of verdicts as there was room, and put in
an order in which neighbours differ most; `tools/picture_test.py` measures them. The pattern of a number, which
`marks.js` draws, is told by its rest by five, so that colours that are alike have different patterns.
"""
# By number from 1 on: on a light page and on a dark one.
DROPS = [("#b46b40", "#a75f34"), ("#6c0056", "#cf48ab"), ("#068090", "#51cade"), ("#a75463", "#f499a7"),
          ("#590281", "#ab5ade"), ("#1a5d04", "#9bfe85"), ("#71886c", "#657c60"), ("#d7397b", "#c92970"),
          ("#851b9b", "#d36dea"), ("#852b00", "#ffd7ca"), ("#9d6aa9", "#915e9c"), ("#2e9903", "#298c01"),
          ("#054f89", "#cce4fe"), ("#6a1d30", "#be6877"), ("#687c08", "#a9c707"), ("#6e69f3", "#635ce5"),
          ("#b73095", "#fe87da"), ("#4b3b05", "#a0832a"), ("#90923b", "#d8db84"), ("#7f3c6b", "#cc83b4"),
          ("#059eb1", "#72e8fc"), ("#5c5c06", "#a3a44e"), ("#a10554", "#fb5c99"), ("#bf5ad6", "#f2bffd"),
          ("#05454e", "#1397a9")]


def variables(column):
    return " ".join(f"--drop-{number}: {pair[column]};" for number, pair in enumerate(DROPS, 1))


def style():
    """The colours as variables of the page's style."""
    return (f":root {{ {variables(0)} }}\n"
            f"@media (prefers-color-scheme: dark) {{ :root {{ {variables(1)} }} }}\n")
