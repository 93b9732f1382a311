"""Draws a plan as one SVG.

A left-deep order goes from left to right, and each scan and level has a bar as high as its bound. In a join tree each
node's bar lies between those of the two nodes that it joins, and the tree is drawn below. The conditions of each step
are listed at the bottom.

Heights are logarithms: each step of the grid is a factor of ten. Where the true number of rows is known, it is a bar
within the bound's bar. The budget is a line; a bar's number that it would cross is written above it.
"""
from __future__ import annotations

import math
import textwrap
from xml.sax.saxutils import escape, quoteattr
from typing import TYPE_CHECKING

from .spot import plain

if TYPE_CHECKING:
    from safebound.plan_texts import PlanText
    from .shown import Shown

TOP, HEIGHT, LEFT, RIGHT = 92, 240, 100, 24
COLUMN_WIDTH, BAR_WIDTH, GAP_WIDTH, NODE_WIDTH, LAYER_HEIGHT = 160, 56, 12, 84, 34
SCAN_COLOUR, STEP_COLOUR, EXCESS_COLOUR, ROWS_COLOUR = "#a8c8e8", "#3b7dbf", "#e08a7d", "#123a66"
BUDGET_COLOUR, INK, GRID_COLOUR = "#c0392b", "#222222", "#dddddd"
DASHES = ' stroke-dasharray="5 4"'
KIND_X, CONDITION_X = LEFT + 96, LEFT + 188


def short(name: str, most: int) -> str:
    return name if len(name) <= most else name[:most - 1] + "…"


def safe(text: str) -> str:
    """A text for a picture or a page, with marks of XML and control characters escaped."""
    return escape(plain(text))


def width_of(words: str, size: int) -> float:
    """The width of a text, roughly, in points."""
    return 0.64 * size * len(words)


class Picture:
    def __init__(self, shown: Shown, wide: int, is_linked: bool) -> None:
        plan = shown.plan
        self.shown, self.is_linked, self.foot = shown, is_linked, TOP + HEIGHT
        self.parts: list[str] = []
        self.numbers: list[tuple[float, float, str]] = []
        self.decades = max(1, math.ceil(math.log10(max([*plan.scans.values(), *plan.bounds, shown.budget or 1]))))
        self.width = math.ceil(
            max(LEFT + wide + RIGHT, LEFT + self.legend(), LEFT + width_of(shown.title, 15) + RIGHT, 620)
        )
        self.text(LEFT, 26, shown.title, 15, "start", weight="bold")
        self.grid()

    def height(self, value: int) -> float:
        """The height of a bar. All bars but that of 0 are 8 points higher than the logarithm says, so that a bar of 1
        is visible.
        """
        return 0 if value == 0 else 8 + (HEIGHT - 8) * math.log10(value) / self.decades

    def text(
        self, x: float, y: float, words: str, size: int = 12, anchor: str = "middle", ink: str = INK,
        weight: str = "normal",
    ) -> None:
        self.parts.append(
            f'<text x="{x:.1f}" y="{y:.1f}" font-size="{size}" text-anchor="{anchor}" fill="{ink}"'
            f' font-weight="{weight}" stroke="white" stroke-width="3" paint-order="stroke">{safe(words)}</text>'
        )

    def bar(self, x: float, width: int, value: int, ink: str, says: str, to: str) -> None:
        high = self.height(value)
        drawn = (
            f'<rect x="{x:.1f}" y="{self.foot - high:.1f}" width="{width}" height="{high:.1f}"'
            f' fill="{ink}"><title>{safe(says)}</title></rect>'
        )
        self.parts.append(f"<a href={quoteattr('#' + to)}>{drawn}</a>" if self.is_linked else drawn)

    def number(self, x: float, value: int) -> None:
        """Writes a bar's number above the bar, or above the budget's line if that line would cross the number."""
        y, budget = self.foot - self.height(value) - 5, self.shown.budget
        line = self.foot - self.height(budget) if budget else None
        self.numbers.append((x, line - 5 if line is not None and y - 11 <= line <= y + 4 else y, f"{value:,}"))

    def line(self, value: int, ink: str, dashes: str = "") -> float:
        y = self.foot - self.height(value)
        self.parts.append(f'<path d="M{LEFT} {y:.1f}H{self.width - RIGHT}" stroke="{ink}"{dashes}/>')
        return y

    def grid(self) -> None:
        self.text(LEFT - 92, TOP - 20, "rows; each line is ten times the one below (logarithmic)", 11, "start")
        for power in range(self.decades + 1):
            self.text(LEFT - 8, self.line(10**power, GRID_COLOUR) + 4, f"{10**power:,}", 11, "end")
        self.parts.append(f'<path d="M{LEFT} {self.foot}H{self.width - RIGHT}" stroke="{INK}"/>')

    def legend(self) -> float:
        """Draws the legend of the colours, and returns its width."""
        shown, step = self.shown, self.shown.step
        x: float = LEFT
        has_steps = bool(shown.plan.levels or shown.plan.nodes)
        exceeds_budget = any(shown.is_past(bound) for bound in shown.plan.bounds)
        of_steps = (
            [(STEP_COLOUR, f"bound of the {step}")] + [(EXCESS_COLOUR, f"{step} past the budget")] * exceeds_budget
            + [(ROWS_COLOUR, "its true rows")] * (shown.rows is not None)
        )
        for ink, words in [(SCAN_COLOUR, "bound of the scan")] + of_steps * has_steps:
            self.parts.append(f'<rect x="{x}" y="38" width="12" height="12" fill="{ink}"/>')
            self.text(x + 18, 48, words, 12, "start")
            x += 34 + width_of(words, 12)
        if shown.budget is not None:
            self.parts.append(f'<path d="M{x:.1f} 44h22" stroke="{BUDGET_COLOUR}"{DASHES}/>')
            self.text(x + 28, 48, f"budget {shown.budget:,}", 12, "start", BUDGET_COLOUR)
            x += 44 + width_of(f"budget {shown.budget:,}", 12)
        return x - LEFT

    def conditions(self, below: int) -> int:
        """Draws the conditions of each step, one to a line. Returns the height of the whole picture."""
        y = self.foot + below
        for name, kind, words in self.shown.said():
            lines = textwrap.wrap(
                words, max(20, int((self.width - RIGHT - CONDITION_X) / width_of("m", 11))), break_long_words=True
            )
            self.text(LEFT, y, short(name, 12), 11, "start", weight="bold")
            self.text(KIND_X, y, kind, 11, "start")
            for number, line in enumerate(lines):
                self.text(CONDITION_X, y + 16 * number, line, 11, "start")
            y += 16 * len(lines)
        return y

    def svg(self, below: int) -> str:
        if self.shown.budget is not None:
            self.line(self.shown.budget, BUDGET_COLOUR, DASHES)
        for x, y, words in self.numbers:
            self.text(x, y, words, 11)
        height = self.conditions(below)
        # On a page the picture shrinks to three quarters of its width if it has to. On a narrower page it is scrolled.
        fits = (
            f' style="width:100%;height:auto;max-width:{self.width}px;min-width:{self.width * 3 // 4}px"'
            if self.is_linked else ""
        )
        head = (
            f'<svg xmlns="http://www.w3.org/2000/svg" width="{self.width}" height="{height}"{fits}'
            f' viewBox="0 0 {self.width} {height}" font-family="DejaVu Sans, Verdana, sans-serif">'
        )
        ground = f'<rect width="{self.width}" height="{height}" fill="white"/>'
        return "\n".join([head, f"<title>{safe(self.shown.title)}</title>", ground, *self.parts, "</svg>", ""])


def draw(shown: Shown, is_linked: bool = False) -> str:
    """The SVG of a plan. With links, a click on a bar leads to its section of the page."""
    return (draw_tree if shown.plan.is_tree else draw_order)(shown, is_linked)


def draw_order(shown: Shown, is_linked: bool) -> str:
    picture = Picture(shown, len(shown.plan.levels) * COLUMN_WIDTH, is_linked)
    for number, (alias, bound) in enumerate(shown.plan.levels):
        left = LEFT + number * COLUMN_WIDTH + (COLUMN_WIDTH - 2 * BAR_WIDTH - GAP_WIDTH) / 2
        draw_scan(picture, alias, left)
        draw_step(picture, number, left + BAR_WIDTH + GAP_WIDTH, bound)
        middle = left + BAR_WIDTH + GAP_WIDTH / 2
        if number:
            picture.text(LEFT + number * COLUMN_WIDTH, picture.foot + 20, "→", 14)
        picture.text(middle, picture.foot + 20, f"{number + 1}  {short(alias, 14)}", 13, weight="bold")
        if shown.table(alias) != alias:
            picture.text(middle, picture.foot + 38, short(shown.table(alias), 21), 11)
        if shown.rows is not None:
            picture.text(middle, picture.foot + 60, f"{shown.rows[number]:,} of {bound:,}", 11)
    if shown.rows is not None:
        picture.text(LEFT - 8, picture.foot + 60, "true rows", 11, "end")
    return picture.svg(92)


def draw_scan(picture: Picture, alias: str, left: float) -> None:
    bound = picture.shown.plan.scans[alias]
    says, to = f"scan {alias}: at most {bound:,} rows", picture.shown.entry_id(alias)
    picture.bar(left, BAR_WIDTH, bound, SCAN_COLOUR, says, to)
    picture.number(left + BAR_WIDTH / 2, bound)


def draw_step(picture: Picture, at: int, left: float, bound: int) -> None:
    """Draws the bar of the level or inner node with this index, and its true rows within."""
    shown = picture.shown
    name, to = shown.step_name(at), shown.step_id(at)
    colour = EXCESS_COLOUR if shown.is_past(bound) else STEP_COLOUR
    picture.bar(left, BAR_WIDTH, bound, colour, f"{name}: at most {bound:,} rows", to)
    picture.number(left + BAR_WIDTH / 2, bound)
    if shown.rows is not None:
        picture.bar(left + 8, BAR_WIDTH - 16, shown.rows[at], ROWS_COLOUR, f"{name}: {shown.rows[at]:,} rows", to)


def heights(plan: PlanText) -> list[int]:
    """The height of each node in the tree. A leaf has height 0."""
    found = [0] * len(plan.scans)
    for node in plan.nodes:
        found.append(1 + max(found[node.left], found[node.right]))
    return found


def in_order(plan: PlanText, number: int) -> list[int]:
    """The numbers of a node and all nodes below it, from left to right."""
    if number < len(plan.scans):
        return [number]
    node = plan.nodes[number - len(plan.scans)]
    return in_order(plan, node.left) + [number] + in_order(plan, node.right)


def draw_tree(shown: Shown, is_linked: bool) -> str:
    plan = shown.plan
    leaves, last = len(plan.scans), len(plan.scans) + len(plan.nodes) - 1
    columns, height = in_order(plan, last), heights(plan)
    picture = Picture(shown, len(columns) * NODE_WIDTH, is_linked)
    middle = {number: LEFT + at * NODE_WIDTH + NODE_WIDTH / 2 for at, number in enumerate(columns)}
    low = {number: picture.foot + 20 + LAYER_HEIGHT * height[number] for number in columns}
    for number, node in enumerate(plan.nodes, leaves):
        for other in (node.left, node.right):
            top = low[other] + 4 + 16 * (other < leaves)
            picture.parts.append(
                f'<path d="M{middle[other]:.1f} {top}V{low[number]}H{middle[number]:.1f}" stroke="{INK}" fill="none"/>'
            )
    for number in columns:
        draw_leaf(picture, number, middle, low) if number < leaves else draw_node(picture, number, middle, low)
    foot = 20 + LAYER_HEIGHT * height[last] + 32
    if shown.rows is not None and plan.nodes:
        picture.text(LEFT - 8, picture.foot + foot - 12, "true rows", 11, "end")
    return picture.svg(foot + 32)


def draw_leaf(picture: Picture, number: int, middle: dict[int, float], low: dict[int, int]) -> None:
    alias, x = picture.shown.plan.entries[number], middle[number]
    draw_scan(picture, alias, x - BAR_WIDTH / 2)
    picture.text(x, low[number], f"{number}  {short(alias, 8)}", 13, weight="bold")
    if picture.shown.table(alias) != alias:
        picture.text(x, low[number] + 15, short(picture.shown.table(alias), 12), 11)


def draw_node(picture: Picture, number: int, middle: dict[int, float], low: dict[int, int]) -> None:
    shown, x = picture.shown, middle[number]
    at = number - len(shown.plan.scans)
    draw_step(picture, at, x - BAR_WIDTH / 2, shown.plan.nodes[at].bound)
    picture.text(x, low[number] + 4, str(number), 13, weight="bold")
    if shown.rows is not None:
        picture.text(x, low[number] + 20, f"{shown.rows[at]:,} of {shown.plan.nodes[at].bound:,}", 11)
