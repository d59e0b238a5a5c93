"""Puts what a script of this folder measured into docs/PERFORMANCE.md, in the place of what it put there before."""

import summary


def put(document, script, part):
    """Writes the part between the marks of the script: at the page's end where it has none."""
    begin, end = f"<!-- bench/{script} begins -->", f"<!-- bench/{script} ends -->"
    text = document.read_text()
    if begin in text:
        front, rest = text.split(begin)
        text = f"{front}{begin}\n{part}{end}{rest.split(end)[1]}"
    else:
        text = f"{text.rstrip()}\n\n{begin}\n{part}{end}\n"
    document.write_text(summary.with_summary(text))
