"""Draws the order of a plan: a column for each stage, a lane for each object that stands at one place of the steps.

Run as: python3 stages.py ORDER [--at N] [--svg]
ORDER is what `pddlstream deorder` prints. A step stands in the lane of its argument N, the first if none is named; steps
without one have a lane of their own. With `--svg` the same as boxes, and an arrow for each pair that no others imply.
"""
import sys

WIDE, HIGH, GAP, EDGE, LABEL = 132, 40, 56, 14, 64    # of a box, between two columns, around all, for a lane's name


def read_order(path):
    """The steps by their numbers, the pairs, and the stages by their numbers."""
    steps, pairs, stages = {}, [], {}
    for line in open(path):
        word, *fields = line.split() or [""]
        if word == "do":
            steps[len(steps) + 1] = fields
        elif word == "before":
            pairs.append(tuple(map(int, fields)))
        elif word == "stage":
            stages[int(fields[0])] = list(map(int, fields[1:]))
    return steps, pairs, stages


def lanes_of(steps, at):
    """The lane of each step: the name of its argument, or '' where it has none; and the lanes as they come."""
    lane = {number: (step[at] if len(step) > at else "") for number, step in steps.items()}
    names = list(dict.fromkeys(lane.values()))
    return lane, [name for name in names if name] + [""] * ("" in names)


def shown(step, at):
    """A step without the argument that names its lane, and without what was generated."""
    return " ".join(field for place, field in enumerate(step) if place != at and not field.startswith("#"))


def bare(pairs):
    """The pairs that no chain of others implies."""
    later = {}
    for first, second in pairs:
        later.setdefault(first, set()).add(second)

    def beyond(start):
        seen, todo = set(), [step for next_one in later.get(start, ()) for step in later.get(next_one, ())]
        while todo:
            step = todo.pop()
            if step not in seen:
                seen.add(step)
                todo.extend(later.get(step, ()))
        return seen

    return [(first, second) for first, second in pairs if second not in beyond(first)]


def as_text(steps, stages, at):
    """A line for each row of a lane; a lane has as many rows as steps in one stage."""
    lane, lanes = lanes_of(steps, at)
    width = max([len(shown(step, at)) for step in steps.values()] + [7]) + 2
    left = max([len(name) for name in lanes] + [3]) + 2
    lines = [" " * left + "".join(str(stage).ljust(width) for stage in stages)]
    for name in lanes:
        cells = {stage: [n for n in numbers if lane[n] == name] for stage, numbers in stages.items()}
        for row in range(max(len(numbers) for numbers in cells.values())):
            texts = (shown(steps[numbers[row]], at) if row < len(numbers) else "" for numbers in cells.values())
            lines.append((name if row == 0 else "").ljust(left) + "".join(text.ljust(width) for text in texts))
    return [line.rstrip() for line in lines]


def places_of(steps, stages, at):
    """The corner of each step's box, the lanes with their upper edges, and the size of all."""
    lane, lanes = lanes_of(steps, at)
    corners, tops, top = {}, [], EDGE + 24
    for name in lanes:
        rows = 0
        for column, numbers in enumerate(stages.values()):
            for row, number in enumerate(n for n in numbers if lane[n] == name):
                corners[number] = (EDGE + LABEL + column * (WIDE + GAP), top + row * (HIGH + 12))
                rows = max(rows, row + 1)
        tops.append((name, top, rows * (HIGH + 12)))
        top += rows * (HIGH + 12) + 16
    return corners, tops, (2 * EDGE + LABEL + len(stages) * (WIDE + GAP) - GAP, top + EDGE - 16)


def as_svg(steps, pairs, stages, at):
    """Boxes by stages and lanes, and arrows."""
    corners, tops, (width, height) = places_of(steps, stages, at)
    lines = [
        f'<svg xmlns="http://www.w3.org/2000/svg" width="{width}" height="{height}" font-family="sans-serif" font-size="13">',
        '<defs><marker id="tip" markerWidth="8" markerHeight="8" refX="7" refY="4" orient="auto">'
        '<path d="M0,0 L8,4 L0,8 z" fill="#555"/></marker></defs>',
        f'<rect width="{width}" height="{height}" fill="white"/>',
    ]
    for column, stage in enumerate(stages):
        x = EDGE + LABEL + column * (WIDE + GAP) + WIDE // 2
        lines.append(f'<text x="{x}" y="{EDGE + 10}" text-anchor="middle" fill="#777">stage {stage}</text>')
    for name, top, _ in tops:
        lines.append(f'<text x="{EDGE}" y="{top + HIGH // 2 + 5}" fill="#777">{name}</text>')
    for first, second in bare(pairs):
        (x, y), (to_x, to_y) = corners[first], corners[second]
        lines.append(
            f'<line x1="{x + WIDE}" y1="{y + HIGH // 2}" x2="{to_x - 1}" y2="{to_y + HIGH // 2}" stroke="#555" marker-end="url(#tip)"/>'
        )
    for number, (x, y) in sorted(corners.items()):
        lines.append(f'<rect x="{x}" y="{y}" width="{WIDE}" height="{HIGH}" rx="6" fill="#e8f0fa" stroke="#4a78b0"/>')
        lines.append(f'<text x="{x + WIDE // 2}" y="{y + HIGH // 2 + 5}" text-anchor="middle">{number} {shown(steps[number], at)}</text>')
    return lines + ["</svg>"]


def main(words):
    at = 1
    if "--at" in words:
        place = words.index("--at")
        at = int(words[place + 1])
        del words[place : place + 2]
    svg = "--svg" in words
    steps, pairs, stages = read_order(next(word for word in words if word != "--svg"))
    print("\n".join(as_svg(steps, pairs, stages, at) if svg else as_text(steps, stages, at)))


if __name__ == "__main__":
    main(sys.argv[1:])
