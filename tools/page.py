"""The parts of an HTML page that needs nothing from outside: tables, pictures with a caption, sections.

usage: from page import page

It is not proved. Each text that comes from files is escaped.
"""

from collections.abc import Sequence
from html import escape
from pathlib import Path

from shared import Value, show

STYLE = Path(__file__).resolve().parent / "page.css"


def html_table(heads: Sequence[str], rows: Sequence[Sequence[Value]], of: str = "") -> str:
    """Numbers stand to the right and texts to the left. Of the class depends what a phone shows."""
    cells = [
        "" if rows and all(isinstance(row[at], int | float) for row in rows) else ' class="text"'
        for at in range(len(heads))
    ]
    lines = ["".join(f"<th{cls}>{escape(it)}</th>" for it, cls in zip(heads, cells))]
    lines += [
        "".join(f"<td{cls}>{escape(show(it))}</td>" for it, cls in zip(row, cells)) for row in rows
    ]
    inside = "".join(f"<tr>{it}</tr>\n" for it in lines)
    return f'<div class="scrolls"><table class="{of}">{inside}</table></div>'


def figure(picture: str, caption: str) -> str:
    return f"<figure>{picture}<figcaption>{escape(caption)}</figcaption></figure>"


def paragraph(text: str, of: str = "") -> str:
    return f'<p class="{of}">{escape(text)}</p>' if of else f"<p>{escape(text)}</p>"


def section(title: str, *parts: str) -> str:
    return f"<section><h2>{escape(title)}</h2>\n" + "\n".join(parts) + "</section>\n"


def page(title: str, parts: Sequence[str]) -> str:
    with open(STYLE, encoding="utf-8", newline="\n") as file:
        style = file.read()
    head = (
        '<!DOCTYPE html>\n<html lang="en">\n<head>\n<meta charset="utf-8">\n'
        '<meta name="viewport" content="width=device-width, initial-scale=1">\n'
        f"<title>{escape(title)}</title>\n<style>\n{style}</style>\n</head>\n"
    )
    return f"{head}<body>\n<h1>{escape(title)}</h1>\n" + "\n".join(parts) + "</body>\n</html>\n"
