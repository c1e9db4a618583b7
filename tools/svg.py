"""What the drawings share: shapes, text and colours of an SVG."""

from html import escape

INK, GREY, WHITE, RED, MADE = "#1d2733", "#6b7785", "#ffffff", "#c0392b", "#fff0b3"
FIRST, SECOND, FIRST_PARITY, SECOND_PARITY = "#cfe3f7", "#d8f0d2", "#9cc6ee", "#a5d79a"
GLOBAL = "#e2a9d3"
FONT = "font-family='DejaVu Sans, Verdana, sans-serif'"


def text(x, y, words, size=13, anchor="start", fill=INK, bold=False):
    weight = " font-weight='bold'" if bold else ""
    return (
        f"<text x='{x:g}' y='{y:g}' font-size='{size}' text-anchor='{anchor}' "
        f"fill='{fill}'{weight} {FONT}>{escape(str(words))}</text>"
    )


def middle(x, y, words, size=13, fill=INK, bold=False):
    return text(x, y, words, size, "middle", fill, bold)


def box(x, y, width, height, fill, stroke=INK, thick=1.2, dashed=False):
    dash = " stroke-dasharray='4 3'" if dashed else ""
    return (
        f"<rect x='{x:g}' y='{y:g}' width='{width:g}' height='{height:g}' rx='3' fill='{fill}' "
        f"stroke='{stroke}' stroke-width='{thick}'{dash}/>"
    )


def line(x1, y1, x2, y2, stroke=GREY, thick=1.3, arrow=False):
    head = " marker-end='url(#head)'" if arrow else ""
    return (
        f"<line x1='{x1:g}' y1='{y1:g}' x2='{x2:g}' y2='{y2:g}' stroke='{stroke}' "
        f"stroke-width='{thick}'{head}/>"
    )


def group_fill(code_data, f):
    """The colour of a fragment: those of the first group, of the second, their local parities, and
    the two global ones."""
    half = code_data // 2
    if f < code_data:
        return FIRST if f < half else SECOND
    return (FIRST_PARITY, SECOND_PARITY, GLOBAL, GLOBAL)[f - code_data]


def drawing(width, height, title, description, shapes):
    """A picture with its title, and in one sentence what is seen, as pages have it for readers who
    see no picture."""
    head = (
        "<defs><marker id='head' viewBox='0 0 10 10' refX='9' refY='5' markerWidth='7' "
        "markerHeight='7' orient='auto'>"
        f"<path d='M0,0 L10,5 L0,10 z' fill='{GREY}'/></marker></defs>"
    )
    start = (
        f"<svg xmlns='http://www.w3.org/2000/svg' viewBox='0 0 {width:g} {height:g}' "
        f"width='{width:g}' height='{height:g}' role='img'>"
    )
    parts = [
        start,
        f"<title>{escape(title)}</title>",
        f"<desc>{escape(description)}</desc>",
        head,
        f"<rect width='{width:g}' height='{height:g}' fill='white'/>",
        *shapes,
        "</svg>",
    ]
    return "\n".join(parts) + "\n"
