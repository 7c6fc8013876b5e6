"""Looks for ink in a picture of helm-display, by its report: where sides, dashes and shading must be, and where none may be; the rings
of the cutter head, and the side or corner on which it sits.

Places are drawn from a fixed seed. Where it looks is computed here, from the tables of the report; the display has no part in it."""

import itertools
import math
import random

import png

DAY = {"ground": (255, 255, 255), "bed": (0, 76, 140), "design": (199, 74, 0), "paired": (228, 238, 247), "under": (253, 230, 138)}
DAY.update({"inside": (0, 0, 0), "side": (27, 128, 70), "corner": (192, 0, 192), "nowhere": (74, 74, 74)})
NIGHT = {"ground": (9, 11, 15), "bed": (92, 158, 219), "design": (230, 133, 51), "paired": (16, 27, 40), "under": (77, 64, 13)}
NIGHT.update({"inside": (255, 246, 214), "side": (32, 208, 128), "corner": (255, 180, 240), "nowhere": (156, 156, 156)})
# form and colour of a ring of the head, for each position
RINGS = ("inside", "side", "side", "side", "corner", "corner", "corner", "nowhere")
CHARTS = ("bed", "design")
PLACES = 3000  # that are looked at, of a picture
REACH = 9  # pixels around a place that are looked at; shading lines are less than twice as far apart
FROM_HEAD = 70
FROM_LABEL = 40
# how many of each kind of place a run must have looked at; and of those around heads
LEAST = {"bed sides": 80, "design sides": 25, "shared design sides": 8, "blank places": 1500, "shaded places": 200, "unshaded places": 1000}
LEAST_OF_HEADS = {"rings inside": 12, "rings side": 24, "rings corner": 24, "rings nowhere": 40, "panels": 30}
LEAST_OF_HEADS.update({"places with a band": 4000, "places without a band": 20000})


def inside(t, p, margin=-1e-6):
    """Whether a point is in a triangle, by so many grid units at least."""
    for k in range(3):
        (ax, ay), (bx, by) = t[2 * k : 2 * k + 2], (t + t)[2 * k + 2 : 2 * k + 4]
        length = ((bx - ax) ** 2 + (by - ay) ** 2) ** 0.5
        if ((bx - ax) * (p[1] - ay) - (by - ay) * (p[0] - ax)) < margin * length:
            return False
    return True


def sides_of(table):
    """Each side once, with how many triangles have it."""
    sides = {}
    for t in table:
        corners = [tuple(t[2 * k : 2 * k + 2]) for k in range(3)]
        for k in range(3):
            side = tuple(sorted((corners[k], corners[(k + 1) % 3])))
            sides[side] = sides.get(side, 0) + 1
    return sides


def distance(p, a, b):
    """From a point to a side."""
    dx, dy = b[0] - a[0], b[1] - a[1]
    along = max(0, min(1, ((p[0] - a[0]) * dx + (p[1] - a[1]) * dy) / (dx * dx + dy * dy or 1)))
    return ((a[0] + along * dx - p[0]) ** 2 + (a[1] + along * dy - p[1]) ** 2) ** 0.5


class Plan:
    """The plan of a picture: where grid points are in it, in pixels."""

    def __init__(self, picture, report, colours):
        shown = report["picture"]
        self.picture, self.report, self.colours = picture, report, colours
        self.dots = picture.width / shown["size"][0]
        self.left, self.top, self.right, self.bottom = (v * self.dots for v in shown["plan"])
        self.window = shown["window"]
        self.scale = (self.right - self.left) / (self.window[2] - self.window[0])
        self.tables = {c: report["charts"][c]["table"] for c in CHARTS}
        self.sides = {c: {tuple(map(self.pixels, side)): n for side, n in sides_of(self.tables[c]).items()} for c in CHARTS}

    def pixels(self, point):
        return self.left + (point[0] - self.window[0]) * self.scale, self.top + (point[1] - self.window[1]) * self.scale

    def grid(self, place):
        return self.window[0] + (place[0] - self.left) / self.scale, self.window[1] + (place[1] - self.top) / self.scale

    def holds(self, place, margin):
        x, y = place
        return self.left + margin < x < self.right - margin and self.top + margin < y < self.bottom - margin

    def near(self, place, colour, reach=2, share=0.5):
        """Whether a pixel near a place has so much of a colour: between the ground's and the whole of it, and no other."""
        x, y, ground = int(place[0]), int(place[1]), self.colours["ground"]
        ink = [c - g for c, g in zip(self.colours[colour], ground)]
        for u, v in ((u, v) for v in range(y - reach, y + reach + 1) for u in range(x - reach, x + reach + 1)):
            got = [p - g for p, g in zip(png.pixel(self.picture, u, v), ground)]
            part = sum(a * b for a, b in zip(got, ink)) / sum(a * a for a in ink)
            if part > share and max(abs(a - part * b) for a, b in zip(got, ink)) < 40:
                return True
        return False

    def inside(self):
        """Its rows of pixels, without the frame."""
        left, top, right, bottom = (int(v) + d for v, d in zip((self.left, self.top, self.right, self.bottom), (4, 4, -3, -3)))
        channels = self.picture.channels
        return [row[channels * left : channels * right] for row in self.picture.rows[top:bottom]]

    def around(self, place):
        """The colours around a place."""
        x, y = int(place[0]), int(place[1])
        return {png.pixel(self.picture, u, v) for v in range(y - REACH, y + REACH + 1) for u in range(x - REACH, x + REACH + 1)}

    def is_clear(self, place):
        """Whether sides, numbers and the head are far from a place."""
        head = self.report["head"]
        if head and distance(place, self.pixels(head), self.pixels(head)) < FROM_HEAD:
            return False
        for chart in CHARTS:
            if any(distance(place, a, b) < 2 * REACH for a, b in self.sides[chart]):
                return False
            for _, x, y in self.report["picture"]["labels"][chart]["set"]:
                if distance(place, self.pixels((x, y)), self.pixels((x, y))) < FROM_LABEL:
                    return False
        return True


def along(a, b, count):
    """Places along a side, its ends left out."""
    return [(a[0] + (b[0] - a[0]) * k / count, a[1] + (b[1] - a[1]) * k / count) for k in range(1, count)]


def side_faults(plan, seen):
    """Bed sides have ink all along; design sides have dashes, and gaps between them, also where two triangles have the side."""
    for a, b in plan.sides["bed"]:
        places = [p for p in along(a, b, 12) if plan.holds(p, 4)]
        if distance(a, b, b) < 24 or len(places) < 6:
            continue
        seen["bed sides"] += 1
        found = sum(plan.near(p, "bed") for p in places)
        if found < 0.7 * len(places):
            yield f"the bed side from {plan.grid(a)} to {plan.grid(b)} has ink at {found} of {len(places)} places"
    for (a, b), triangles in plan.sides["design"].items():
        places = [p for p in along(a, b, int(distance(a, b, b)) + 1) if plan.holds(p, 4)]
        if len(places) < 80:
            continue
        seen["design sides"] += 1
        seen["shared design sides"] += triangles > 1
        share = sum(plan.near(p, "design", 1) for p in places) / len(places)
        if not 0.45 < share < 0.95:
            yield f"the design side from {plan.grid(a)} to {plan.grid(b)} ({triangles} triangles) has ink on {share:.2f} of its length"


def place_fault(plan, place, seen):
    """What is wrong with one place that is clear of sides, numbers and the head; None if nothing."""
    at = plan.grid(place)
    bed, design = ([i for i, t in enumerate(plan.tables[c]) if inside(t, at)] for c in CHARTS)
    key, colours = plan.report["overlay"]["key"], plan.around(place)
    if not bed and not design:
        seen["blank places"] += 1
        return None if colours == {plan.colours["ground"]} else f"{at} is outside all triangles and has ink: {colours}"
    if bed and design:
        seen["shaded places"] += 1
        if not any([i, j] in key for i in bed for j in design):
            return f"{at} is in bed {bed} and design {design}, which are no pair"
        return None if len(colours) > 1 else f"{at} is in bed {bed} and design {design} and has no shading"
    seen["unshaded places"] += 1
    if bed:
        found = plan.report["picture"]["layout"] == "helm" and plan.report["found"]
        wanted = "under" if found and found["bed"]["triangle"] in bed else "paired" if any(i in bed for i, _ in key) else "ground"
    else:
        wanted = "ground"
    wrong = f"{at} is in bed {bed} and design {design} and should be {wanted} alone: {colours}"
    return None if colours == {plan.colours[wanted]} else wrong


def place_faults(plan, seen):
    rng = random.Random(7)
    for _ in range(PLACES):
        place = rng.uniform(plan.left, plan.right), rng.uniform(plan.top, plan.bottom)
        if plan.holds(place, 2 * REACH) and plan.is_clear(place):
            wrong = place_fault(plan, place, seen)
            if wrong:
                yield wrong


# ---- the cutter head

# of a head of size 1: the rings' radius; of both layouts: the head's size and the band's width, at 1280 by 800 pixels or in millimetres
RADIUS = {"bed": 0.85, "design": 1.6}
SIZES = {"helm": (16, 14), "sheet": (2.4, 1.7)}
# of a corner, from the head: where the band surely is, and where no more of it is, in sizes of the head
BAND_FROM, BAND_TO, BAND_END = 3, 4.7, 5.3


def sizes(plan):
    """The head's size and the band's width, in pixels."""
    shown = plan.report["picture"]
    unit = min(shown["size"][0] / 1280, shown["size"][1] / 800) if shown["layout"] == "helm" else plan.dots
    return [n * unit for n in SIZES[shown["layout"]]]


def outline(form, radius, count=96):
    """Places around a ring of a form, from its middle: circle, square, square on its corner; all of one area."""
    for k in range(count):
        x, y = math.cos(2 * math.pi * k / count), math.sin(2 * math.pi * k / count)
        edge = math.sqrt(math.pi) / 2
        far = radius * {"side": edge / max(abs(x), abs(y)), "corner": math.sqrt(2) * edge / (abs(x) + abs(y))}.get(form, 1)
        yield x * far, y * far


def coloured(plan, place, colour):
    """Whether the pixel at a place has the whole of a colour."""
    got = png.pixel(plan.picture, int(place[0]), int(place[1]))
    return max(abs(a - b) for a, b in zip(got, plan.colours[colour])) < 25


def has_ink(plan, chart):
    """Whether a pixel of the plan has the whole of a chart's colour."""
    channels = plan.picture.channels
    return any(plan.colours[chart] in set(zip(*(row[k::channels] for k in range(3)))) for row in plan.inside())


def ring_faults(plan, seen):
    """Each ring has the form and the colour of its chart's position, and neither the tips of another form nor another colour."""
    x, y = plan.pixels(plan.report["head"])
    for chart in CHARTS:
        form = RINGS[plan.report["found"][chart]["position"]]
        around = {g: [(x + u, y + v) for u, v in outline(g, RADIUS[chart] * sizes(plan)[0])] for g in dict.fromkeys(RINGS)}
        shares = {c: sum(coloured(plan, p, c) for p in around[form]) / len(around[form]) for c in dict.fromkeys(RINGS)}
        own = shares.pop(form)
        seen[f"rings {form}"] = seen.get(f"rings {form}", 0) + 1
        what = f"the head at {plan.report['head']}: the ring of {chart} should be {form}"
        if not (0.3 < own < 0.7 if form == "nowhere" else own > 0.95) or max(shares.values()) > 0.1:
            yield f"{what}: {own:.2f} of it is, and of other colours {shares}"
        for other, first in (("side", 1), ("corner", 0)):
            # the arms of the cross have the colour of a ring inside, and lie on the outer ring's tips
            arms = (chart, form, other) == ("design", "inside", "corner")
            tips = around[other][first * len(around[other]) // 8 :: len(around[other]) // 4]
            # the band of a side may lie on two of them
            if other != form and not arms and sum(coloured(plan, p, form) for p in tips) > 2:
                yield f"{what}, and has the tips of {other}"


def band_places(plan, a, b, band):
    """Places on both edges of the band along a side, where no other side, no number and not the head is; with how far the head is."""
    head, length = plan.pixels(plan.report["head"]), distance(a, b, b)
    across = ((b[1] - a[1]) / length, (a[0] - b[0]) / length)
    others = [side for c in CHARTS for side in plan.sides[c] if set(side) != {a, b}]
    labels = [plan.pixels(at) for c in CHARTS for _, *at in plan.report["picture"]["labels"][c]["set"]]
    for x, y in along(a, b, int(length / 4) + 1):
        far = distance((x, y), head, head)
        near = [distance((x, y), *side) for side in others] + [distance((x, y), at, at) / 3 for at in labels]
        if far > BAND_FROM * sizes(plan)[0] and min(near, default=band) >= band and plan.holds((x, y), band):
            yield from (((x + s * across[0], y + s * across[1]), far) for s in (0.38 * band, -0.38 * band))


def band_faults(plan, seen):
    """The side on which the head sits has its band all along, both sides of a corner for a part, and nothing else has one."""
    head, band = sizes(plan)
    for chart in CHARTS:
        found = plan.report["found"][chart]
        form, table = RINGS[found["position"]], plan.tables[chart]
        for side in range(3) if found["triangle"] is not None else ():
            corners = [plan.pixels(table[found["triangle"]][2 * k : 2 * k + 2]) for k in (side, (side + 1) % 3)]
            on = form == "side" and side == found["position"] - 1
            at = form == "corner" and found["position"] - 4 in (side, (side + 1) % 3)
            places = list(band_places(plan, *corners, band))
            there = [p for p, far in places if on or at and far < BAND_TO * head]
            nothing = [p for p, far in places if not on and not (at and far < BAND_END * head)]
            has = [sum(any(coloured(plan, p, c) for c in ("side", "corner") if all_of or c == form) for p in part)
                   for part, all_of in ((there, False), (nothing, True))]
            what = f"side {side} of {chart} {found['triangle']}, the head {form} at {plan.report['head']}"
            if has[0] < 0.9 * len(there):
                yield f"{what}: its band is at {has[0]} of {len(there)} places"
            if has[1]:
                yield f"{what}: a band is at {has[1]} of {len(nothing)} places where none should be"
            seen["places with a band"] = seen.get("places with a band", 0) + len(there)
            seen["places without a band"] = seen.get("places without a band", 0) + len(nothing)


def told_faults(plan, seen):
    """Beside the plan of the helm's picture stand the positions in their colours, and no other."""
    at = {RINGS[plan.report["found"][c]["position"]] for c in CHARTS}
    left, rows = int(plan.right) + 10, plan.picture.rows[: int(plan.bottom)]
    beside = [row[left * plan.picture.channels :] for row in rows]
    pixels = {tuple(row[k : k + 3]) for row in beside for k in range(0, len(row), plan.picture.channels)}
    seen["panels"] = seen.get("panels", 0) + 1
    for form in ("side", "corner"):
        if (plan.colours[form] in pixels) != (form in at):
            yield f"the head at {plan.report['head']}, {at}: beside the plan the colour of {form} is {'missing' if form in at else 'there'}"


def head_faults(picture, report, night, counts):
    """What is wrong with the head of a picture, by its report."""
    plan = Plan(picture, report, NIGHT if night else DAY)
    yield from ring_faults(plan, counts)
    yield from band_faults(plan, counts)
    if report["picture"]["layout"] == "helm":
        yield from told_faults(plan, counts)


# ---- colours, as people with and without all three kinds of cones see them

# what is seen of linear red, green and blue: Machado, Oliveira and Fernandes, 2009, the whole of a kind missing
SEEN = {
    "all": ((1, 0, 0), (0, 1, 0), (0, 0, 1)),
    "protan": ((0.152286, 1.052583, -0.204868), (0.114503, 0.786281, 0.099216), (-0.003882, -0.048116, 1.051998)),
    "deutan": ((0.367322, 0.860646, -0.227968), (0.280085, 0.672501, 0.047413), (-0.011820, 0.042940, 0.968881)),
    "tritan": ((1.255528, -0.076749, -0.178779), (-0.078411, 0.930809, 0.147602), (0.004733, 0.691367, 0.303900)),
}


def linear(colour):
    return [c / 255 / 12.92 if c <= 10 else ((c / 255 + 0.055) / 1.055) ** 2.4 for c in colour]


def contrast(one, other):
    """The ratio of WCAG 2."""
    low, high = sorted(0.2126 * r + 0.7152 * g + 0.0722 * b for r, g, b in map(linear, (one, other)))
    return (high + 0.05) / (low + 0.05)


def lab(colour, eyes):
    """CIE L*a*b* of a colour as it is seen."""
    r, g, b = (min(1, max(0, sum(m * c for m, c in zip(row, linear(colour))))) for row in SEEN[eyes])
    parts = [0.4339 * r + 0.3762 * g + 0.1899 * b, 0.2126 * r + 0.7152 * g + 0.0722 * b, 0.0177 * r + 0.1095 * g + 0.8729 * b]
    x, y, z = (t ** (1 / 3) if t > 0.008856 else 7.787 * t + 16 / 116 for t in parts)
    return 116 * y - 16, 500 * (x - y), 200 * (y - z)


def difference(one, other):
    """The least that two colours differ (CIE76) to any eyes."""
    return min(math.dist(lab(one, eyes), lab(other, eyes)) for eyes in SEEN)


def colour_faults():
    """Rings stand out from the ground as the charts do, and differ from each other, and those on a boundary from the charts."""
    for colours in (DAY, NIGHT):
        least = {on: min(contrast(colours[c], colours[on]) for c in CHARTS) for on in ("ground", "under", "paired")}
        for form, on in itertools.product(dict.fromkeys(RINGS), least):
            if contrast(colours[form], colours[on]) < least[on]:
                yield f"contrast of {form} on {on}: {contrast(colours[form], colours[on]):.1f}, and of the charts {least[on]:.1f}"
        pairs = [(24, pair) for pair in itertools.combinations(dict.fromkeys(RINGS), 2)]
        for least, (a, b) in pairs + [(17, pair) for pair in itertools.product(("side", "corner"), CHARTS)]:
            if difference(colours[a], colours[b]) < least:
                yield f"{a} and {b} differ by {difference(colours[a], colours[b]):.1f} to some eyes, not by {least}"


# ---- a picture


def faults_of(picture, report, night, counts):
    """What is wrong with the ink of a picture without cells; how many places were looked at goes to the counts."""
    plan, seen = Plan(picture, report, NIGHT if night else DAY), dict.fromkeys(LEAST, 0)
    found = [*side_faults(plan, seen), *place_faults(plan, seen)]
    yield from found[:5]
    for what, number in seen.items():
        counts[what] = counts.get(what, 0) + number
