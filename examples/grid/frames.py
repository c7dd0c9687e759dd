"""Draws the blocks in motion: a frame for the start and one for each step that `play` acted out.

Run as: python3 frames.py PLAY GRID [--svg]
PLAY is what `pddlstream play .. GRID` printed. As text the frames stand side by side: `.` is a free cell, `_` one of a
region, `#` an obstacle; a block is a capital letter, in the order of the grid file, and a held one stands in no frame. With
--svg they are one page. Where the plan has a fault, the cells of the blocks that it names are `!`, and red on the page.
"""
import sys
from xml.sax.saxutils import escape

from draw import draw, read_grid

CELL, GAP, CAPTION, ROW = 24, 24, 28, 3
COLOURS = ["#4c78a8", "#f58518", "#54a24b", "#b279a2", "#9d755d", "#72b7b2", "#eeca3b", "#ff9da6"]


def read_play(path, blocks):
    """For the start and each mark its line and where the blocks are then, None for a held one; and the blocks of the fault."""
    corners = {name: (x, y) for name, (_, _, x, y) in blocks.items()}
    frames, blamed = [("start", dict(corners))], []
    for line in open(path):
        word, *fields = line.split() or [""]
        if word == "held":
            corners[fields[1]] = None
            frames.append((line.strip(), dict(corners)))
        elif word == "at":
            corners[fields[1]] = (int(fields[2]), int(fields[3]))
            frames.append((line.strip(), dict(corners)))
        elif word in ("strange", "outside", "obstacle", "clash"):
            blamed = fields[1:]
            frames[-1] = (f"{frames[-1][0]}: {line.strip()}", frames[-1][1])
    return frames, blamed


def cells_of(block, corner, size):
    """The cells of a block that lie in the grid."""
    (w, h, _, _), (x, y), (width, height) = block, corner, size
    return [(column, row) for row in range(y, min(y + h, height)) for column in range(x, min(x + w, width))]


def text_of(grid, frames, blamed):
    """The frames side by side, with their lines above them."""
    columns = []
    for place, (line, corners) in enumerate(frames):
        inside = {name: at if at is None or cells_of(grid[1][name], at, grid[0]) else None for name, at in corners.items()}
        rows = [list(row) for row in draw_inside(grid, inside)]
        if place == len(frames) - 1:
            for name in blamed:
                if corners[name] is not None:
                    for column, row in cells_of(grid[1][name], corners[name], grid[0]):
                        rows[row][column] = "!"
        columns.append([line] + ["".join(row) for row in rows])
    width = [max(map(len, column)) for column in columns]
    return ["   ".join(column[row].ljust(w) for column, w in zip(columns, width)).rstrip()
            for row in range(grid[0][1] + 1)]


def draw_inside(grid, corners):
    """As `draw`, where a block may reach over the edge of the grid."""
    size, blocks, regions, obstacles = grid
    cut = {name: (min(w, size[0] - corners[name][0]), min(h, size[1] - corners[name][1]), x, y)
           if corners[name] is not None else (w, h, x, y) for name, (w, h, x, y) in blocks.items()}
    return draw((size, cut, regions, obstacles), corners)


def svg_of(grid, frames, blamed):
    """One page of all frames, three in a row."""
    (width, height), blocks, regions, obstacles = grid
    across, down = width * CELL + GAP, height * CELL + GAP + CAPTION
    rows = -(-len(frames) // ROW)
    lines = [f'<svg xmlns="http://www.w3.org/2000/svg" width="{ROW * across + GAP}" height="{rows * down + GAP}"'
             ' font-family="sans-serif" font-size="14">',
             '<rect width="100%" height="100%" fill="white"/>']

    def box(x, y, w, h, fill, extra=""):
        lines.append(f'<rect x="{x * CELL}" y="{y * CELL}" width="{w * CELL}" height="{h * CELL}" fill="{fill}"{extra}/>')

    for place, (line, corners) in enumerate(frames):
        last = place == len(frames) - 1
        lines.append(f'<g transform="translate({GAP + place % ROW * across},{GAP + place // ROW * down + CAPTION})">')
        lines.append(f'<text y="-8">{escape(line)}</text>')
        box(0, 0, width, height, "#f4f4f4", ' stroke="#888"')
        for x, y, w, h in regions:
            box(x, y, w, h, "#d8e8d0")
        for x, y, w, h in obstacles:
            box(x, y, w, h, "#555")
        for number, (name, (w, h, _, _)) in enumerate(blocks.items()):
            if corners[name] is None:
                continue
            x, y = corners[name]
            colour = "#d62728" if last and name in blamed else COLOURS[number % len(COLOURS)]
            box(x, y, w, h, colour, ' fill-opacity="0.85" stroke="black"')
            lines.append(f'<text x="{(x + w / 2) * CELL}" y="{(y + h / 2) * CELL + 5}" text-anchor="middle" fill="white">'
                         f"{escape(name)}</text>")
        held = [name for name, at in corners.items() if at is None]
        if held:
            lines.append(f'<text x="{width * CELL}" y="-8" text-anchor="end">in the hand: {escape(" ".join(held))}</text>')
        lines.append("</g>")
    return lines + ["</svg>"]


def main():
    words = [word for word in sys.argv[1:] if word != "--svg"]
    if len(words) != 2:
        sys.exit(__doc__)
    grid = read_grid(words[1])
    frames, blamed = read_play(words[0], grid[1])
    made = svg_of if "--svg" in sys.argv else text_of
    print("\n".join(made(grid, frames, blamed)))


if __name__ == "__main__":
    main()
