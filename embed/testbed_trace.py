"""How a connection of a `testbed` network stands over time: kept, written as CSV, and drawn."""

from __future__ import annotations

import csv
import dataclasses
import enum
import importlib
import math
from typing import Any, List, Sequence, Tuple

from host import Host, Info

__all__ = ["Trace"]

# The panels of a picture: what it counts, and the fields of Info that it shows.
PANELS = (("octets", ("cwnd", "in_flight")), ("milliseconds", ("srtt", "rto")))
COLOURS = ("#1f77b4", "#d62728")
WIDTH, HEIGHT, LEFT, RIGHT, GAP = 900, 260, 90, 30, 40

Point = Tuple[float, float]


class Trace:
    """What `Host.info` told of a connection, in each turn in which that changed. `rows` has the moments, in milliseconds, and each Info. It ends with the
    socket."""

    def __init__(self, id: int) -> None:
        self._id = id
        self._ended = False
        self.rows: List[Tuple[int, Info]] = []

    def look(self, now: int, host: Host) -> None:
        """Keeps how the connection stands now, if that is new."""
        if self._ended:
            return
        try:
            info = host.info(self._id)
        except OSError:
            self._ended = True
            return
        if not self.rows or self.rows[-1][1] != info:
            self.rows.append((now, info))

    def csv(self, path: str) -> None:
        """Writes a row for each: the moment, and the fields of Info under their names. What there is none of is empty, and a state is its name."""
        with open(path, "w", newline="", encoding="ascii") as file:
            writer = csv.writer(file)
            writer.writerow(["moment"] + [field.name for field in dataclasses.fields(Info)])
            for moment, info in self.rows:
                writer.writerow([moment] + [_cell(getattr(info, field.name)) for field in dataclasses.fields(Info)])

    def draw(self, path: str) -> None:
        """Draws the congestion window, the octets in flight, the smoothed round trip and the timeout over time: by matplotlib, where it is there, in the
        format of the path's ending. Elsewhere it is a picture in SVG, and the path must end so: else ImportError."""
        try:
            figures = importlib.import_module("matplotlib.figure")
        except ImportError:
            if not path.endswith(".svg"):
                raise ImportError("without matplotlib the picture is one in SVG, whose path ends in .svg") from None
            with open(path, "w", encoding="ascii") as file:
                file.write(self._svg())
            return
        figure = figures.Figure(figsize=(9, 6))
        for axes, (unit, names) in zip(figure.subplots(len(PANELS), sharex=True), PANELS):
            for name, colour in zip(names, COLOURS):
                points = self._points(name)
                axes.step([x for x, _ in points], [y for _, y in points], where="post", label=name, color=colour)
            axes.set_ylabel(unit)
            axes.set_ylim(bottom=0)
            axes.legend()
        axes.set_xlabel("milliseconds")
        figure.savefig(path)

    def _points(self, name: str) -> List[Point]:
        return [(moment, getattr(info, name)) for moment, info in self.rows if getattr(info, name) is not None]

    def _svg(self) -> str:
        last = max((moment for moment, _ in self.rows), default=0) or 1
        tall = len(PANELS) * (HEIGHT + GAP) + GAP
        parts = [
            f'<svg xmlns="http://www.w3.org/2000/svg" width="{WIDTH}" height="{tall}" font-family="sans-serif" font-size="12">',
            '<rect width="100%" height="100%" fill="white"/>',
        ]
        for number, (unit, names) in enumerate(PANELS):
            parts += self._panel(GAP + number * (HEIGHT + GAP), unit, names, last)
        parts.append(f'<text x="{(LEFT + WIDTH - RIGHT) // 2}" y="{tall - 6}" text-anchor="middle">milliseconds</text>')
        return "\n".join(parts + ["</svg>", ""])

    def _panel(self, top: int, unit: str, names: Sequence[str], last: int) -> List[str]:
        """One panel: its frame, lines at round numbers of both axes, and a line of steps for each name."""
        wide, bottom = WIDTH - LEFT - RIGHT, top + HEIGHT
        series = [self._points(name) for name in names]
        rows = _round_numbers(max((y for points in series for _, y in points), default=0) or 1, 5)
        most = rows[-1]
        parts = [f'<text transform="translate(16 {top + HEIGHT // 2}) rotate(-90)" text-anchor="middle">{unit}</text>']
        for row in rows:
            y_at = f"{bottom - HEIGHT * row / most:.1f}"
            parts.append(f'<path d="M{LEFT} {y_at}h{wide}" stroke="#ddd"/>')
            parts.append(f'<text x="{LEFT - 6}" y="{y_at}" dy="4" text-anchor="end">{row:.10g}</text>')
        for column in _round_numbers(last, 8)[:-1]:
            x_at = f"{LEFT + wide * column / last:.1f}"
            parts.append(f'<path d="M{x_at} {top}v{HEIGHT}" stroke="#ddd"/>')
            parts.append(f'<text x="{x_at}" y="{bottom + 16}" text-anchor="middle">{column:.10g}</text>')
        parts.append(f'<rect x="{LEFT}" y="{top}" width="{wide}" height="{HEIGHT}" fill="none" stroke="#888"/>')
        for place, (name, colour, points) in enumerate(zip(names, COLOURS, series)):
            corners: List[str] = []
            y = ""
            for moment, value in points:
                x, before, y = f"{LEFT + wide * moment / last:.1f}", y, f"{bottom - HEIGHT * value / most:.1f}"
                corners += [f"{x},{before}", f"{x},{y}"] if before else [f"{x},{y}"]
            parts.append(f'<polyline fill="none" stroke="{colour}" stroke-width="{2 - place}" points="{" ".join(corners)}"/>')
            parts.append(f'<text x="{LEFT + 10 + 90 * place}" y="{top - 6}" fill="{colour}">{name}</text>')
        return parts


def _round_numbers(most: float, count: int) -> List[float]:
    """Round numbers from 0 on at even steps, of which about so many are needed; only the last is more than `most`."""
    power = 10.0 ** math.floor(math.log10(most / count))
    step = next(factor * power for factor in (1, 2, 5, 10) if factor * power * count >= most)
    return [step * number for number in range(math.floor(most / step) + 2)]


def _cell(value: Any) -> Any:
    return "" if value is None else value.name if isinstance(value, enum.Enum) else value
