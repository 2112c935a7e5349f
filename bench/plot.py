"""A picture of times over the length of a history, as SVG: one panel for each operation, both axes logarithmic."""

import math

WIDTH, HEIGHT, LEFT, TOP, BOTTOM, GAP = 760, 340, 64, 52, 46, 76
LINES = {"floor": ("#777777", "6 3"), "tsvd": ("#1f5fa8", ""), "mariadb": ("#c0571a", "2 3")}
NAMES = {"floor": "floor (plain Rust)", "tsvd": "tsvd", "mariadb": "MariaDB"}


def text(x, y, words, anchor="middle", more=""):
    return f'<text x="{x:.1f}" y="{y:.1f}" text-anchor="{anchor}"{more}>{words}</text>'


def spoken(micros):
    """A power of ten of microseconds in the unit that it is spoken of in."""
    if micros >= 1_000_000:
        return f"{micros // 1_000_000} s"
    return f"{micros // 1000} ms" if micros >= 1000 else f"{micros} µs"


def panel(left, width, title, figures, exponents, powers):
    """A panel: `figures` has, for each program, the microseconds by the exponent of the history's versions."""
    low, high = powers
    height = HEIGHT - TOP - BOTTOM

    def across(exponent):
        return left + 14 + (width - 28) * (exponent - exponents[0]) / max(1, exponents[-1] - exponents[0])

    def up(micros):
        return TOP + height * (high - math.log10(micros)) / (high - low)

    yield text(left + width / 2, TOP - 12, title, more=' font-weight="bold"')
    for power in range(low, high + 1):
        y = up(10 ** power)
        yield f'<line x1="{left}" y1="{y:.1f}" x2="{left + width:.1f}" y2="{y:.1f}" stroke="#dddddd"/>'
        yield text(left - 6, y + 4, spoken(10 ** power), "end")
    yield f'<rect x="{left}" y="{TOP}" width="{width:.1f}" height="{height}" fill="none" stroke="#333333"/>'
    for exponent in exponents:
        power = f'10<tspan dy="-4" font-size="8">{exponent}</tspan>'
        yield text(across(exponent), HEIGHT - BOTTOM + 16, power)
    yield text(left + width / 2, HEIGHT - 8, "versions")
    for program, micros in figures.items():
        colour, dashes = LINES[program]
        places = [(across(exponent), up(micros[exponent])) for exponent in exponents if exponent in micros]
        points = " ".join(f"{x:.1f},{y:.1f}" for x, y in places)
        yield (f'<polyline points="{points}" fill="none" stroke="{colour}" stroke-width="2"'
               + (f' stroke-dasharray="{dashes}"/>' if dashes else "/>"))
        for x, y in places:
            yield f'<circle cx="{x:.1f}" cy="{y:.1f}" r="3" fill="{colour}"/>'


def legend(programs):
    x = LEFT
    for program in programs:
        colour, dashes = LINES[program]
        dashes = f' stroke-dasharray="{dashes}"' if dashes else ""
        yield f'<line x1="{x}" y1="16" x2="{x + 30}" y2="16" stroke="{colour}" stroke-width="2"{dashes}/>'
        yield text(x + 38, 20, NAMES[program], "start")
        x += 60 + 7 * len(NAMES[program])
    yield text(WIDTH - 16, 20, "median time that one client waits", "end")


def picture(panels, exponents):
    """The lines of a picture: `panels` has a title, and for each program its microseconds by exponent."""
    shown = [micros for _, figures in panels for by in figures.values() for micros in by.values()]
    powers = math.floor(math.log10(min(shown))), math.ceil(math.log10(max(shown)))
    width = (WIDTH - LEFT - GAP * (len(panels) - 1) - 16) / len(panels)
    programs = [program for program in LINES if any(program in figures for _, figures in panels)]
    yield (f'<svg xmlns="http://www.w3.org/2000/svg" width="{WIDTH}" height="{HEIGHT}" viewBox="0 0 {WIDTH} {HEIGHT}" '
           'font-family="sans-serif" font-size="11">')
    yield f'<rect width="{WIDTH}" height="{HEIGHT}" fill="#ffffff"/>'
    yield from legend(programs)
    for number, (title, figures) in enumerate(panels):
        yield from panel(round(LEFT + number * (width + GAP)), width, title, figures, exponents, powers)
    yield "</svg>"
