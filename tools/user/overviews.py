"""The map of an area from above, north at its top: each piece a link to its page, and all torches. Its corner is that of
the area: browsers draw far from the middle of a world in steps."""
import html

from extents import size_of

TORCH = "#e0a73a"
MAP = """\
<svg viewBox="0 0 {wide} {long}" role="img" aria-label="The pieces from above, north at the top">
{pieces}
<path d="{torches}" stroke="{colour}" stroke-width="{dot}" stroke-linecap="round"/>
</svg>"""
PIECE = """\
<a href="{page}"><title>{told}</title><rect x="{x}" y="{z}" width="{wide}" height="{long}"/>\
<text x="{middle}" y="{centre}" font-size="{size}">{number}</text></a>"""


def svg(area, pieces):
    """The map of an extent. Each piece is told by its extent, its torches, its page, and in words."""
    (left, _, north), (wide, _, long) = area.low, size_of(area)
    side = max(wide, long)
    drawn = [piece_of(number, area, side, *piece) for number, piece in enumerate(pieces, 1)]
    torches = "".join(f"M{torch[0] - left}.5 {torch[2] - north}.5h0" for _, torches, _, _ in pieces for torch in torches)
    return MAP.format(wide=wide, long=long, pieces="\n".join(drawn), torches=torches, colour=TORCH,
                      dot=round(max(1, side / 250), 1))


def piece_of(number, area, side, extent, torches, page, told):
    """A piece of a map whose longer side is told, with its number as large as fits."""
    (wide, _, long), x, z = size_of(extent), extent.low[0] - area.low[0], extent.low[2] - area.low[2]
    size = round(min(side / 25, wide / 2, long / 2), 1)
    return PIECE.format(page=html.escape(page), told=html.escape(told), x=x, z=z, wide=wide, long=long,
                        middle=x + wide / 2, centre=z + long / 2, size=size, number=number)
