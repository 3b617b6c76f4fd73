"""Outlines of `glyf` at coordinates of a variable font: fontTools reads `gvar` and infers deltas;
parts of a glyph are put together here, and no place is rounded."""


def coordinates_of(font, place):
    """The coordinates of a place in the units of users, as multiples of 1/16384."""
    from fontTools.varLib.models import normalizeLocation, piecewiseLinearMap
    axes = {axis.axisTag: (axis.minValue, axis.defaultValue, axis.maxValue)
            for axis in font["fvar"].axes}
    maps = font["avar"].segments if "avar" in font else {}
    found = {}
    for tag, value in normalizeLocation(place, axes).items():
        value = round(value * 16384) / 16384
        found[tag] = round(piecewiseLinearMap(value, maps.get(tag, {})) * 16384) / 16384
    return found


def moved_points(font, name, at):
    """The points of a glyph, or the offsets of its components, with the four for metrics."""
    from fontTools.ttLib.tables._g_l_y_f import GlyphCoordinates
    from fontTools.varLib.iup import iup_delta
    from fontTools.varLib.models import supportScalar
    glyf, metrics = font["glyf"], font["hmtx"].metrics
    start, control = glyf._getCoordinatesAndControls(name, metrics)
    points, ends = GlyphCoordinates(start), list(control.endPts)
    for tuple_ in font["gvar"].variations.get(name, []) if "gvar" in font else []:
        scalar, deltas = supportScalar(at, tuple_.axes), tuple_.coordinates
        if scalar:
            if None in deltas:
                deltas = iup_delta(deltas, start, ends)
            points += GlyphCoordinates(deltas) * scalar
    return list(points)


def placed(part, place, points, before):
    """The points of a component, which stands at a place, or by points of those before it."""
    (xx, xy), (yx, yy) = getattr(part, "transform", [[1, 0], [0, 1]])
    dx, dy = place
    is_scaled = part.flags & 0x1800 == 0x800
    if is_scaled:
        points = [(x + dx, y + dy, on) for x, y, on in points]
        dx = dy = 0
    points = [(x * xx + y * yx + dx, x * xy + y * yy + dy, on) for x, y, on in points]
    if hasattr(part, "firstPt"):
        whole, own = before[part.firstPt], points[part.secondPt]
        dx, dy = whole[0] - own[0], whole[1] - own[1]
        points = [(x + dx, y + dy, on) for x, y, on in points]
    return points


def parts_of(font, name, at):
    """The points of a glyph and whether it goes through them, the ends of its contours, and where
    its left point for metrics stands."""
    glyph, moved = font["glyf"][name], moved_points(font, name, at)
    left, points, ends = moved[-4][0], [], []
    if not glyph.isComposite():
        if glyph.numberOfContours > 0:
            points = [(x, y, bool(flag & 1)) for (x, y), flag in zip(moved, glyph.flags)]
            ends = list(glyph.endPtsOfContours)
        return points, ends, left
    for part, place in zip(glyph.components, moved):
        own, own_ends, own_left = parts_of(font, part.glyphName, at)
        ends += [end + len(points) for end in own_ends]
        points += placed(part, place, own, points)
        if part.flags & 0x200:
            left = own_left
    return points, ends, left


def contours_at(font, name, at):
    """The contours of a glyph, moved so that its left point stands at 0."""
    points, ends, left = parts_of(font, name, at)
    places = [((x - left, y), on) for x, y, on in points]
    return [places[start:end + 1] for start, end in zip([0] + [it + 1 for it in ends], ends)]
