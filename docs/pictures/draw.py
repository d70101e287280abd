"""Draws the pictures of this folder: draw.py GRID FOLDER, as scripts/pictures runs it. GRID is the
program of tests/proj/grid.c, which all that is painted comes from; here are only the choices of
windows, squares, places and colours."""

import io
import math
import os
import subprocess
import sys

import matplotlib

matplotlib.use("Agg")
import matplotlib.cm
import matplotlib.colors
import matplotlib.lines
import matplotlib.patches
import matplotlib.patheffects
import matplotlib.pyplot as plt
import matplotlib.ticker
import numpy as np
import PIL.Image

KM = 1000.0
POSITIONS = 128  # drawn in each square
HALO = [matplotlib.patheffects.withStroke(linewidth=2.2, foreground="white")]
LINE = dict(color="#444444", linewidth=0.5, alpha=0.6)
ACCEPTED, REFUSED = "#d3e4f0", "#d9694f"
SET = "Parameter set ETRS-LAEA (EPSG 3035)"

PLACES_OF_EUROPE = [
    ("Reykjavik", 64.15, -21.94), ("Lisbon", 38.72, -9.14), ("Dublin", 53.35, -6.26),
    ("Madrid", 40.42, -3.70), ("Paris", 48.86, 2.35), ("Berlin", 52.52, 13.41),
    ("Rome", 41.90, 12.50), ("Athens", 37.98, 23.73), ("Stockholm", 59.33, 18.07),
    ("Kyiv", 50.45, 30.52), ("Moscow", 55.76, 37.62), ("Ankara", 39.93, 32.86),
]
PLACES = [
    ("Berlin", 52.52, 13.41), ("Dakar", 14.72, -17.47), ("Nairobi", -1.29, 36.82),
    ("Karachi", 24.86, 67.01), ("Beijing", 39.90, 116.41), ("New York", 40.71, -74.01),
    ("Anchorage", 61.22, -149.90), ("North Pole", 90.0, 0.0), ("Luanda", -8.84, 13.23),
]
PLACES_OF_THE_GLOBE = PLACES + [
    ("Mexico City", 19.43, -99.13), ("Santiago", -33.45, -70.67), ("Perth", -31.95, 115.86),
    ("Honolulu", 21.31, -157.86), ("Wellington", -41.29, 174.78),
]

# Places whose name stands to the left of the dot.
LEFT = {"Wellington", "Perth"}

# The centre of the set, in degrees and in metres.
CENTRE = (52, 10)
ORIGIN = (4_321_000, 3_210_000)


class Plane:
    """Squares of the map, in metres, from the west and south edge."""

    def __init__(self, west, south, side, columns, rows):
        self.words = [str(word) for word in (west, south, side, columns, rows)]
        self.side = side
        self.extent = [edge / KM for edge in (west, west + side * columns, south, south + side * rows)]


def around(half, side):
    """Squares around the centre, as far as half the width each way."""
    return Plane(ORIGIN[0] - half, ORIGIN[1] - half, side, 2 * half // side, 2 * half // side)


EUROPE = Plane(1_000_000, 900_000, 20_000, 332, 250)
HALF_GLOBE = around(9_200_000, 50_000)
GLOBE = around(15_000_000, 25_000)


def ask(*words, text=None):
    """What the program prints, as an array."""
    said = subprocess.run([GRID, *words], input=text, stdout=subprocess.PIPE, check=True, text=True).stdout
    return np.loadtxt(io.StringIO(said), ndmin=2)


def project(latitudes, longitudes):
    """Eastings and northings in km, nan where refused."""
    lines = "".join(f"{latitude:.9f} {longitude:.9f}\n" for latitude, longitude in zip(latitudes, longitudes))
    return ask("places", text=lines).T / KM


def measured(name, region, plane):
    return ask(name, region, *plane.words, str(POSITIONS))


def degrees(value, positive, negative):
    return f"{abs(value):g}°" + (positive if value > 0 else negative if value < 0 else "")


def write(axes, text, east, north, **style):
    style = {"fontsize": 7, "color": "#333333", "path_effects": HALO, "va": "center", "clip_on": True, **style}
    axes.text(east, north, text, **style)


def mark_places(axes, places, points):
    """A dot with its name beside it; near the right edge the name stands to the left."""
    west, east = axes.get_xlim()
    step = (east - west) * 0.01
    for (name, _, _), (x, y) in zip(places, points):
        axes.plot(x, y, "o", markersize=3, color="black", markeredgecolor="white", markeredgewidth=0.5)
        left = name in LEFT or x > east - 12 * step
        write(axes, name, x - step if left else x + step, y, ha="right" if left else "left", color="black", fontsize=7.5)


def on_map(places):
    return project(*zip(*[place[1:] for place in places])).T


def draw_line(axes, latitudes, longitudes, shown):
    east, north = project(latitudes, longitudes)
    hidden = ~shown(east, north)
    east[hidden] = north[hidden] = np.nan
    axes.plot(east, north, **LINE)


def draw_graticule(axes, latitudes, longitudes, shown):
    """The parallels and meridians, where shown says that there is something to orient in."""
    for longitude in longitudes:
        draw_line(axes, np.linspace(-90, 90, 721), np.full(721, longitude), shown)
    for latitude in latitudes:
        draw_line(axes, np.full(1441, latitude), np.linspace(-180, 180, 1441), shown)


def name_lines(axes, latitudes, longitudes, shown):
    """The meridians named where they cross 15 N, the parallels where they cross 15 E."""
    names = [(15, longitude, degrees(longitude, " E", " W")) for longitude in longitudes]
    names += [(latitude, 15, degrees(latitude, " N", " S")) for latitude in latitudes]
    points = project([name[0] for name in names], [name[1] for name in names]).T
    for (_, _, text), (x, y) in zip(names, points):
        if shown(np.array([x]), np.array([y]))[0]:
            write(axes, text, x, y, ha="center", color="#555555")


def painted(values, plane):
    """A test of whether positions in km lie on a square that has a value."""
    west, _, south, _ = plane.extent
    rows, columns = values.shape

    def test(east, north):
        column = np.floor(np.nan_to_num((east - west) * KM / plane.side, nan=-1)).astype(int)
        row = np.floor(np.nan_to_num((north - south) * KM / plane.side, nan=-1)).astype(int)
        inside = (0 <= column) & (column < columns) & (0 <= row) & (row < rows)
        return inside & ~np.isnan(values[row * inside, column * inside])

    return test


def levels(values):
    """Round numbers from 0 to past the greatest value."""
    return matplotlib.ticker.MaxNLocator(10, steps=[1, 2, 2.5, 5, 10]).tick_values(0, np.nanmax(values))


def paint(axes, values, plane, edges):
    """The squares in steps of colour, pale for near. The colours are made here, before the picture is
    brought to its size: a number on the edge of a step must not slip below it on the way."""
    scale = matplotlib.cm.ScalarMappable(matplotlib.colors.BoundaryNorm(edges, 256), "YlOrRd")
    colours = scale.to_rgba(np.ma.masked_invalid(values))
    axes.imshow(colours, origin="lower", extent=plane.extent, interpolation="nearest")
    return scale


def add_scale(scale, axes, edges, label):
    bar = axes.flat[0].figure.colorbar(scale, ax=axes, ticks=edges, shrink=0.9, pad=0.02)
    bar.set_label(label, fontsize=10)


def name_axes(axes):
    axes.set_xlabel("easting, km")
    axes.set_ylabel("northing, km")
    for axis in (axes.xaxis, axes.yaxis):
        axis.set_major_formatter(matplotlib.ticker.FuncFormatter(lambda value, _: f"{value:,.0f}".replace("-", "−")))


def start(title, note, columns, size, **grid):
    """A figure with a title and, smaller, what one has to know to read it."""
    figure, axes = plt.subplots(1, columns, figsize=size, squeeze=False, gridspec_kw=grid)
    figure.set_layout_engine("constrained", rect=(0.005, 0.005, 0.99, 0.99 - (0.36 + 0.17 * len(note.splitlines())) / size[1]))
    figure.text(0.5, 1 - 0.12 / size[1], title, ha="center", va="top", fontsize=13)
    figure.text(0.5, 1 - 0.40 / size[1], note, ha="center", va="top", fontsize=9, color="#333333", linespacing=1.35)
    return figure, axes[0]


def save(figure, name):
    path = os.path.join(FOLDER, name + ".png")
    figure.savefig(path, dpi=120)
    plt.close(figure)
    # As many colours as the eye parts here; a third of the bytes.
    PIL.Image.open(path).convert("RGB").quantize(128, dither=PIL.Image.Dither.NONE).save(path, optimize=True)
    print(f"{path}: {os.path.getsize(path) // 1024} KB")


def squares(plane):
    return f"Each square is {plane.side / KM:g} km wide and shows the worst of {POSITIONS} positions in it."


EXACT = f"{SET}. PROJ's laea stands for the exact projection.\n"
HALF = "The half globe is all that lies within 90° of the centre, 52° N 10° E."


def draw_europe():
    values = measured("forward-distance", "europe", EUROPE)
    edges = levels(values)
    figure, both = start("Europe: how far a forward answer is from the exact projection",
                         EXACT + squares(EUROPE), 1, (9, 6.8))
    axes = both[0]
    scale = paint(axes, values, EUROPE, edges)
    add_scale(scale, both, edges, "distance from the exact answer, metres on the map")
    draw_graticule(axes, range(40, 71, 10), range(-20, 41, 10), painted(values, EUROPE))
    for longitude in range(-20, 41, 10):
        (x,), (y,) = project([34], [longitude])
        write(axes, degrees(longitude, " E", " W"), x, y - 40, ha="center", va="top")
    for latitude in range(40, 71, 10):
        (x,), (y,) = project([latitude], [-25])
        write(axes, degrees(latitude, " N", " S"), x - 40, y, ha="right")
    mark_places(axes, PLACES_OF_EUROPE, on_map(PLACES_OF_EUROPE))
    name_axes(axes)
    save(figure, "distance-europe")


def draw_on_half_globe(axes, values, edges):
    scale = paint(axes, values, HALF_GLOBE, edges)
    shown = painted(values, HALF_GLOBE)
    draw_graticule(axes, range(-60, 61, 30), range(-180, 180, 30), shown)
    name_lines(axes, range(-60, 61, 30), range(-180, 180, 30), shown)
    mark_places(axes, PLACES, on_map(PLACES))
    name_axes(axes)
    return scale


def draw_half_globe():
    values = measured("forward-distance", "half-globe", HALF_GLOBE)
    edges = levels(values)
    figure, axes = start("Half globe: how far a forward answer is from the exact projection",
                         EXACT + HALF + "\n" + squares(HALF_GLOBE), 1, (9, 8.5))
    scale = draw_on_half_globe(axes[0], values, edges)
    add_scale(scale, axes, edges, "distance from the exact answer, metres on the map")
    save(figure, "distance-half-globe")


def draw_round_trip():
    values = [measured(f"return-{name}-gap", "half-globe", HALF_GLOBE) for name in ("latitude", "longitude")]
    edges = levels(np.array(values))
    figure, both = start("Half globe, there and back: the inverse of the forward answer against the position put in",
                         f"{SET}. {HALF}\n{squares(HALF_GLOBE)}\n"
                         "The gap of the longitude is taken times the cosine of the latitude.", 2, (13.5, 7))
    for axes, grid, name in zip(both, values, ("latitude", "longitude")):
        scale = draw_on_half_globe(axes, grid, edges)
        axes.set_title(f"gap of the {name}", fontsize=11)
    add_scale(scale, both, edges, "gap, mas (milliarcseconds; 1 mas is about 3 cm on the ground)")
    save(figure, "round-trip-half-globe")


def paint_refusals(axes, marks, extent):
    """Two colours: accepted and refused 4. Another number would be a fault of this picture."""
    if not set(np.unique(marks)) <= {0, 4}:
        sys.exit("a position of the picture of refusal 4 is refused with another number")
    colours = matplotlib.colors.ListedColormap([ACCEPTED, REFUSED])
    axes.imshow(marks == 4, origin="lower", extent=extent, cmap=colours, vmin=0, vmax=1, interpolation="nearest")


def rim(distance):
    """Positions at a distance from the centre, in degrees, on the sphere: good to a fraction of a degree."""
    latitude, turn = math.radians(CENTRE[0]), np.radians(np.linspace(0, 360, 721))
    far = math.radians(distance)
    sine = math.sin(latitude) * math.cos(far) + math.cos(latitude) * math.sin(far) * np.cos(turn)
    longitude = np.arctan2(np.sin(turn) * math.sin(far) * math.cos(latitude), math.cos(far) - math.sin(latitude) * sine)
    return np.degrees(np.arcsin(sine)), (CENTRE[1] + np.degrees(longitude) + 180) % 360 - 180


HALF_GLOBE_LINE = dict(linestyle=(0, (5, 3)), color="#1f4e79", linewidth=1.2)


def draw_refused_forward(axes, marks):
    """On latitudes and longitudes, with 180 degrees in the middle."""
    paint_refusals(axes, np.roll(marks, marks.shape[1] // 2, axis=1), [0, 360, -90, 90])
    latitudes, longitudes = rim(90)
    order = np.argsort(longitudes % 360)
    axes.plot((longitudes % 360)[order], latitudes[order], **HALF_GLOBE_LINE)
    axes.set_xticks(range(0, 361, 60), ["0°", "60° E", "120° E", "180°", "120° W", "60° W", "0°"])
    axes.set_yticks(range(-90, 91, 30), [degrees(value, " N", " S") for value in range(-90, 91, 30)])
    axes.grid(**LINE)
    places = [place for place in PLACES_OF_THE_GLOBE if place[1] < 90]
    mark_places(axes, places, [(longitude % 360, latitude) for _, latitude, longitude in places])
    axes.set_title("forward: latitude and longitude", fontsize=11)


def draw_refused_inverse(axes, marks):
    """On eastings and northings."""
    paint_refusals(axes, marks, GLOBE.extent)
    axes.plot(*project(*rim(90)), **HALF_GLOBE_LINE)
    draw_graticule(axes, range(-60, 61, 30), range(-180, 180, 30), painted(np.where(marks == 0, 0, np.nan), GLOBE))
    mark_places(axes, PLACES_OF_THE_GLOBE, on_map(PLACES_OF_THE_GLOBE))
    name_axes(axes)
    axes.set_title("inverse: easting and northing", fontsize=11)


def refused_cap(marks):
    """The radius in km of the cap that forward refuses, by its share of the globe."""
    weights = np.cos(np.radians(np.linspace(-90, 90, marks.shape[0], endpoint=False) + 90 / marks.shape[0]))
    share = ((marks == 4).mean(axis=1) * weights).sum() / weights.sum()
    return math.acos(1 - 2 * share) * 6371


def about(length):
    return f"about {round(length, -1):,.0f} km"


def accepted_disc(marks):
    """The radius in km of the disc that inverse accepts, by its area."""
    return math.sqrt((marks == 0).sum() / math.pi) * GLOBE.side / KM


def draw_refusal():
    globe, plane = ask("refused-forward", "1440", "720"), ask("refused-inverse", *GLOBE.words)
    figure, both = start("Where refusal 4 begins: too far from the centre",
                         f"{SET}, centre 52° N 10° E. Forward refuses what is nearer than {about(refused_cap(globe))} to the "
                         f"point opposite the centre,\ninverse what is farther than {about(accepted_disc(plane))} from the false origin.",
                         2, (13.5, 5.6), width_ratios=(1.9, 1))
    draw_refused_forward(both[0], globe)
    draw_refused_inverse(both[1], plane)
    handles = [matplotlib.patches.Patch(color=ACCEPTED, label="accepted"),
               matplotlib.patches.Patch(color=REFUSED, label="refused 4"),
               matplotlib.lines.Line2D([], [], label="90° from the centre: the edge of the half globe", **HALF_GLOBE_LINE)]
    both[0].legend(handles=handles, loc="upper center", bbox_to_anchor=(0.5, -0.09), ncol=3, frameon=False)
    save(figure, "refusal-4")


def main():
    draw_europe()
    draw_half_globe()
    draw_round_trip()
    draw_refusal()


GRID, FOLDER = sys.argv[1:3]
main()
