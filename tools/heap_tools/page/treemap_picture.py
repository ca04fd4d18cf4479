"""The picture of what a heap is made of, as SVG: a box for each package and for what something holds, and in it one for
each class, and for what is held in it."""

from typing import Dict, List, Sequence, Tuple, Union

from heap_tools import humanize
from heap_tools.page.names import in_java, names_in_words, pieces_of
from heap_tools.page.templates import Html, fill, joined, plain
from heap_tools.page.treemap import Box, Group, Part, boxes_of, short_name
from heap_tools.page.words import percent, solid_size

#: The treemap is drawn for screens of three widths and for paper: name, least width there, height of each. Places are
#: parts of its width, and only heights are in pixels: so texts are as large in a window of any width, and have at least
#: as much room as at the least one.
TREEMAPS = [("wide", 940, 460), ("medium", 540, 460), ("narrow", 300, 520), ("paper", 690, 220)]
#: The height of a group's name, of a line of text, and the width of a letter, and of one in bold.
HEAD, LINE, NAME_LETTER, BOLD = 20, 14, 7.4, 7.9
#: How many lines a group's name has at most.
HEAD_LINES = 3
#: Letters that are wider than others, and by which part of a letter.
WIDE_LETTERS, WIDER = "mwMW@%", 0.6
#: How many colours there are for what lines hold, for packages of the program and its libraries, and for those of the
#: JDK.
LINE_COLOURS, OWN_COLOURS, JDK_COLOURS = 3, 6, 4
#: How many characters of a name are shown.
LONGEST_LABEL = 120


def colours_of(groups: Sequence[Group]) -> List[str]:
    """Returns the classes of style for the colours of groups: what lines hold is set off, and own packages from those
    of the JDK."""
    colours, numbers = [], {"line": 0, "own": 0, "jdk": 0}
    counts = {"line": LINE_COLOURS, "own": OWN_COLOURS, "jdk": JDK_COLOURS}
    for group in groups:
        if not group.name and not group.fields:
            colours.append("colour-rest")
            continue
        kind = "line" if group.fields else "own" if group.is_own else "jdk"
        colours.append(f"colour-{kind}-{numbers[kind] % counts[kind]}")
        numbers[kind] += 1
    return colours


def name_in_full(part: Part) -> str:
    """Returns the name of a class, or how many small ones there are."""
    return humanize.counted(part.classes, "more class") if part.name is None else in_java(part.name)


def group_name(group: Group) -> str:
    """Returns the name of a group in full."""
    if group.fields:
        return f"held by {names_in_words(group.fields, LONGEST_LABEL)}"
    return plain(group.name or "other packages", LONGEST_LABEL)


def fits(text: str, width: float, letter: float = NAME_LETTER) -> bool:
    """Tests whether a line of text fits into a box of this width."""
    wide = sum(char in WIDE_LETTERS for char in text)
    return (len(text) + WIDER * wide) * letter <= width - 6


def wrapped(name: str, width: float, most: int, letter: float = NAME_LETTER) -> List[str]:
    """Returns a name in at most `most` lines that fit into a box of this width, none if it has no room."""
    lines = [""]
    for piece in pieces_of(name):
        if lines[-1] and not fits(lines[-1] + piece, width, letter):
            lines.append("")
        lines[-1] += piece
    return lines if len(lines) <= most and all(fits(line, width, letter) for line in lines) else []


def box_labels(part: Part, box: Box) -> List[str]:
    """Returns the lines of text of a class's box: as much of its name, whole, and of its bytes as there is room for."""
    name = plain(f"{part.classes:,} more" if part.name is None else short_name(part.name), LONGEST_LABEL)
    room, size = int((box.height - 2) / LINE), solid_size(part.amount.bytes)
    lines = wrapped(name, box.width, room)
    return [*lines, size] if lines and len(lines) < room and fits(size, box.width) else lines


def place_of(box: Box, frame: Box) -> Dict[str, str]:
    """Returns a box in a `frame` as the attributes of an element in that: across as parts of its width."""
    across = {"x": (box.x - frame.x) / frame.width, "width": box.width / frame.width}
    places = {name: f"{100 * part:.2f}%" for name, part in across.items()}
    return {**places, "y": f"{box.y - frame.y:.1f}", "height": f"{box.height:.1f}"}


def cell(part: Part, box: Box, frame: Box, total: int) -> Html:
    """Returns the box of a class in a `frame`."""
    lines = box_labels(part, box)
    texts = [fill("cell_line", y=LINE * at + 13, text=line) for at, line in enumerate(lines)]
    if not lines:
        turned = box_labels(part, Box(0, 0, box.height, box.width))
        texts = [
            fill("cell_turned", x=f"{box.width - LINE * at - 13:.1f}", text=line) for at, line in enumerate(turned)
        ]
    objects, size = humanize.counted(part.amount.objects, "object"), part.amount.bytes
    words = f"{plain(name_in_full(part), LONGEST_LABEL)}: {solid_size(size)}, {percent(100 * size / total)}, {objects}"
    return fill("cell", description=words, texts=joined(texts), **place_of(box, frame))


def group_label(group: Group, width: float) -> Tuple[List[str], str]:
    """Returns the name of a group and its bytes, as much of both as has room: of the name its last part at least, in
    lines if need be; no line if it has no room."""
    name, size = group_name(group), f"  {solid_size(group.amount.bytes)}"
    last = name.rpartition("/")[2]
    names = [name, f"held by {last}", last] if group.fields and "/" in name else [name, last]
    labels = (([each], more) for each in names for more in (size, ""))
    in_a_line = (label for label in labels if fits(label[0][0] + label[1], width, BOLD))
    return next(in_a_line, (wrapped(last, width, HEAD_LINES, BOLD), ""))


def head_of(lines: Sequence[str]) -> float:
    """Returns the height of a group's name."""
    return HEAD + LINE * (len(lines) - 1) if lines else 0


def group_box(group: Group, colour: str, box: Box, frame: Box, total: int) -> Html:
    """Returns the box of a group in a `frame`, with the boxes of its classes, and of the groups in it."""
    lines, size = group_label(group, box.width)
    lines = lines if box.height >= 3 * head_of(lines) else []
    children = group.children()
    boxes = boxes_of([each.amount.bytes for each in children], box.below(head_of(lines)))
    cells = joined(child_box(each, colour, place, box, total) for each, place in zip(children, boxes))
    share = percent(100 * group.amount.bytes / total)
    words = f"{group_name(group)}: {solid_size(group.amount.bytes)}, {share}"
    text = joined(fill("group_name", y=LINE * (at + 1), text=line, size=size) for at, line in enumerate(lines))
    return fill("group_box", description=words, colour=colour, name=text, cells=cells, **place_of(box, frame))


def child_box(child: Union[Part, Group], colour: str, box: Box, frame: Box, total: int) -> Html:
    """Returns the box of a class or of a group in the `frame` of another group."""
    if isinstance(child, Part):
        return cell(child, box, frame, total)
    return group_box(child, colour, box, frame, total)


def treemap(groups: Sequence[Group], place: str) -> Html:
    """Returns the treemap of a heap, for each width. `place`: what its section is called in an address."""
    shown = [(group, colour) for group, colour in zip(groups, colours_of(groups)) if group.amount.bytes > 0]
    sizes = [group.amount.bytes for group, _ in shown]
    named = zip((group_name(group) for group, _ in shown), sizes)
    largest = ", ".join(f"{name} {percent(100 * number / sum(sizes))}" for name, number in named)
    by = "what holds them, and by package" if any(group.fields for group in groups) else "package"
    words = {"description": f"The bytes of the heap by {by}: {largest}. The table below has the same."}
    words["title"] = f"The heap by {by.replace('them', 'it')} and class"
    pictures: List[Html] = []
    for kind, width, height in TREEMAPS:
        whole = Box(0, 0, width, height)
        boxes = boxes_of(sizes, whole)
        drawn = joined(group_box(*each, box, whole, sum(sizes)) for each, box in zip(shown, boxes))
        size: Dict[str, object] = {"kind": kind, "height": height, "place": place}
        pictures.append(fill("treemap", boxes=drawn, **size, **words))
    return joined(pictures, "\n")
