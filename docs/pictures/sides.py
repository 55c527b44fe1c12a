"""Both sides with what crosses, as a picture: the crates of crates.txt on the sides that their head comments name (docs/pages/crate_table.py),
each on a row with those of its level, and between the sides the frames and replies of docs/FORMATS.md."""
import os
import re
import sys

import svg

sys.path.insert(0, os.path.join(os.path.dirname(os.path.abspath(__file__)), os.pardir, "pages"))
from crate_table import TOP, crates, read  # noqa: E402

WIDTH = 1180
CLIENT, SERVER = (20, 560), (860, 300)  # where a side begins, and how wide it is
LANE = (CLIENT[0] + CLIENT[1] + 12, SERVER[0] - 12)
HEAD, ROW, GAP, CHIP = 84, 27, 9, 22
EACH = 7.25  # the width of a letter of a crate's name
COLOURS = {"client": ("#fdf1e3", "#d9a25f", "#8a5410"), "server": ("#e8f1fb", "#7fa8d6", "#1f5592"), "both": ("#eef4ea", "#93b483", "#3f6b2c")}
HOLDS = {
    "client": ("Client", "only here are documents, words and the master key", "its journal: documents and words in plaintext, no key"),
    "server": ("Server", "encrypted lists; it never sees a word", "its journal: the frames that it accepted"),
    "both": ("Both sides", "used by either side: no words, no documents, no master key", ""),
}
CROSSES = [
    "01 opens a session; 81 answers it with the number of the frame expected next.",
    "02 to 05 are a setup, 06 an addition, 07 a deletion; 82 acknowledges each.",
    "08 is a search: five keys of one word. Pages, 85, answer it.",
    "The other replies say why a frame was refused or a search not answered.",
]


def width_of(crate):
    return EACH * len(crate.name) + 14


def kinds():
    """The frames and the replies, each with its kind byte, its name and its fields."""
    text = read("docs/FORMATS.md")
    tables = [re.search(rf"^\| Kind \| {kind} \| Fields \|\n\|[-|]+\|\n((?:\|.*\n)+)", text, re.M)[1] for kind in ("Frame", "Reply")]
    return [re.findall(r"^\| (\w\w) \| (\w+) \| (.*) \|$", table, re.M) for table in tables]


def rows_of(chosen, width):
    """Crates cut into rows that are no wider."""
    rows, taken = [[]], 0.0
    for crate in chosen:
        if rows[-1] and taken + width_of(crate) > width:
            rows.append([])
            taken = 0.0
        rows[-1].append(crate)
        taken += width_of(crate) + 6
    return rows


def draw_level(picture, place, chosen, width):
    x, y = place
    for row in rows_of(chosen, width):
        x = place[0]
        for crate in row:
            _, edge, ink = COLOURS[crate.side]
            fill = edge if crate.is_program else "#ffffff"
            picture.box(x, y, width_of(crate), CHIP, fill, edge, dashed=crate.is_test, tip=f"{crate.name}: {crate.purpose}".replace("`", ""))
            picture.text(x + width_of(crate) / 2, y + 15, crate.name, 12, "middle", svg.INK if crate.is_program else ink, mono=True,
                         bold=crate.is_program)
            x += width_of(crate) + 6
        y += ROW


def draw_side(picture, side, top, height, place):
    x, width = place
    fill, edge, ink = COLOURS[side]
    name, holds, keeps = HOLDS[side]
    picture.box(x, top, width, height, fill, edge, round_by=8)
    picture.text(x + 14, top + 25, name, 17, ink=ink, bold=True)
    picture.text(x + 14, top + 44, holds, 12.5)
    picture.text(x + 14, top + 61, keeps, 12.5)


def draw_crossing(picture, top, height):
    frames, replies = kinds()
    step = (height - 70) / (len(frames) + len(replies) + 1)
    middle = (LANE[0] + LANE[1]) / 2
    y = top + 14
    picture.text(middle, y, "over TCP, or in one process", 12, "middle", svg.PALE)
    for name, rows, side in (("frames", frames, "client"), ("replies", replies, "server")):
        y += 26
        picture.text(middle, y, name, 14, "middle", COLOURS[side][2], bold=True)
        y += 3
        for kind, frame, _ in rows:
            y += step
            begin, end = LANE if side == "client" else LANE[::-1]
            picture.arrow(begin, y, end, COLOURS[side][1])
            picture.text(middle, y - 4, f"{kind} {frame}", 12, "middle", mono=True)


def picture():
    of_side = {side: [crate for crate in crates() if crate.side == side] for side in COLOURS}
    wide = {"client": CLIENT[1] - 46, "server": SERVER[1] - 24, "both": WIDTH - 100}
    y, tops = 20 + HEAD, []
    for level in range(max(crate.level for crate in crates()), 0, -1):
        at = {side: [crate for crate in of_side[side] if crate.level == level] for side in ("client", "server")}
        tops.append((y, level, at))
        y += ROW * max(len(rows_of(at[side], wide[side])) for side in at) + GAP
    bottom = y + 4
    of_both = sorted({crate.level for crate in of_side["both"]}, reverse=True)
    shared = [(level, [crate for crate in of_side["both"] if crate.level == level]) for level in of_both]
    height = bottom + 16 + 58 + sum(ROW * len(rows_of(row, wide["both"])) + GAP for _, row in shared) + 48
    made = svg.Picture(WIDTH, int(height), "Both sides, and what crosses",
                       "The crates of the client, of the server and of both, by level, and the frames and replies between client and server.")
    for side, place in (("client", CLIENT), ("server", SERVER)):
        draw_side(made, side, 20, bottom - 20, place)
    for y, level, at in tops:
        made.text(CLIENT[0] + 14, y + 15, str(level), 12, ink=svg.PALE)
        draw_level(made, (CLIENT[0] + 34, y), at["client"], wide["client"])
        draw_level(made, (SERVER[0] + 14, y), at["server"], wide["server"])
    draw_crossing(made, 30, bottom - 20)
    y = bottom + 16
    draw_side(made, "both", y, height - y - 40, (20, WIDTH - 40))
    for place, words in enumerate(CROSSES):
        made.text(LANE[0] + 34, y + 66 + 22 * place, words, 12.5)
    y += 58
    for level, row in shared:
        made.text(34, y + 15, str(level), 12, ink=svg.PALE)
        draw_level(made, (54, y), row, wide["both"])
        y += ROW * len(rows_of(row, wide["both"])) + GAP
    y = height - 16
    made.text(24, y, "Filled: a program. Dashed: only tests. The number is the level: a crate depends on crates of lower levels,"
              " and only the client's crates depend on the client's.", 12.5, ink=svg.PALE)
    return made.whole()
