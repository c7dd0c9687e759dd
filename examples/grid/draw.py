"""Draws the grid before and after the plan of a report, as text.

Run as: python3 draw.py REPORT GRID
`.` is a free cell, `_` one of a region, `#` an obstacle; a block is a capital letter, in the order of the grid file.
Only the steps `pick BLOCK ..` and `put BLOCK #X,Y ..` of the plan are looked at.
"""
import sys


def read_grid(path):
    """The size, the blocks with size and corner, the regions and the obstacles."""
    blocks, regions, obstacles, size = {}, [], [], (0, 0)
    for line in open(path):
        fields = line.split()
        if not fields or line.startswith(";"):
            continue
        word, *rest = fields
        if word == "grid":
            size = tuple(map(int, rest))
        elif word == "block":
            blocks[rest[0]] = tuple(map(int, rest[1:]))
        elif word == "region":
            regions.append(tuple(map(int, rest[1:])))
        elif word == "obstacle":
            obstacles.append(tuple(map(int, rest)))
    return size, blocks, regions, obstacles


def corners_after(report, blocks):
    """Where each block's corner is behind the plan's steps; None for one that is held."""
    corners = {name: (x, y) for name, (_, _, x, y) in blocks.items()}
    for line in open(report):
        word, *fields = line.split() or [""]
        if word == "do" and fields[0] == "pick":
            corners[fields[1]] = None
        elif word == "do" and fields[0] == "put":
            pose = fields[2]
            home = blocks[fields[1]][2:]
            corners[fields[1]] = home if pose.startswith("home-") else tuple(map(int, pose[1:].split(",")))
    return corners


def draw(grid, corners):
    """The rows of the grid, with the blocks at these corners."""
    (width, height), blocks, regions, obstacles = grid
    cells = [["."] * width for _ in range(height)]

    def fill(x, y, w, h, mark):
        for row in range(y, y + h):
            for column in range(x, x + w):
                cells[row][column] = mark

    for region in regions:
        fill(*region, "_")
    for obstacle in obstacles:
        fill(*obstacle, "#")
    for place, (name, (w, h, _, _)) in enumerate(blocks.items()):
        if corners[name] is not None:
            fill(*corners[name], w, h, chr(ord("A") + place % 26))
    return ["".join(row) for row in cells]


def main():
    if len(sys.argv) != 3:
        sys.exit(__doc__)
    grid = read_grid(sys.argv[2])
    before = draw(grid, {name: block[2:] for name, block in grid[1].items()})
    after = draw(grid, corners_after(sys.argv[1], grid[1]))
    gap = " " * 4
    print("before".ljust(grid[0][0]) + gap + "after")
    for left, right in zip(before, after):
        print(left + gap + right)


if __name__ == "__main__":
    main()
