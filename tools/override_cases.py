#!/usr/bin/env python3
"""Prints what `crates/override_cases` has to print.

    python3 tools/override_cases.py > crates/override_cases/stdout

The model is of docs/GUIDE.md: overrides (section 3), the refusals 19 and 26 of calls on a face by value, and the numbers
that section 1 accepts. It shares nothing with the Rattle code but the cases, which stand there in the same order and
under the same names.
"""
import math
import struct

NAN = math.nan
INF = math.inf
KEEP = None

# Styles: the kind as the list of fonts numbers it, and the angle of a stated one.
NORMAL, ITALIC, UNSTATED = (0, 0.0), (1, 0.0), (2, 0.0)


def degrees(angle):
    return (3, angle)


def single(x):
    """The single nearest to x, as a number."""
    return struct.unpack(">f", struct.pack(">f", x))[0]


def bits(x):
    return struct.pack(">f", x).hex()


# Attributes are (ratio, style, weight), axes are [tag, minimum, default, maximum].
DEFAULT = (1.0, NORMAL, 400.0)
OWN = (0.75, ITALIC, 300.0)
GIVEN = (0.5, degrees(10.0), 700.0)
MINUS_ZEROS = (-0.0, degrees(-0.0), -0.0)
SLANT = ("slnt", -15.0, 0.0, 15.0)
UNUSED = ("\0\0\0\0", 0.0, 0.0, 0.0)


def face(attributes, fourth, count):
    """The attributes, the axes within the count, and the count. A count over 16 has no axes to show."""
    first = [("wght", 100.0, 400.0, 900.0), ("wdth", 50.0, 100.0, 200.0), ("wght", 1.0, 2.0, 3.0), fourth]
    axes = [list(axis) for axis in (first + [UNUSED] * 12)[:count]]
    return attributes, axes, count


def finite(x):
    return not (math.isnan(x) or math.isinf(x))


def accepted(ratio, style, weight):
    """Section 1: finite weights and angles, ratios 0 to 16. What an override keeps is not looked at."""
    return all(
        (
            ratio is KEEP or (finite(ratio) and 0 <= single(ratio) <= 16),
            style is KEEP or finite(style[1]),
            weight is KEEP or finite(weight),
        )
    )


def refusal(of_face, given, values):
    """19 before 26."""
    attributes, axes, count = of_face
    if count > 16:
        return 19
    numbers = [x for axis in axes for x in axis[1:]] + list(values)
    if accepted(*attributes) and accepted(*given) and all(finite(x) for x in numbers):
        return 0
    return 26


def line(name, number, attributes, axes):
    if number:
        return f"{name}: refused {number}"
    ratio, style, weight = attributes
    words = [name + ":", bits(ratio), str(style[0]), bits(style[1]), bits(weight)]
    for tag, *numbers in axes:
        words.append(tag.encode().hex() + "=" + ",".join(bits(x) for x in numbers))
    return " ".join(words)


def apply_override(name, of_face, given, pairs):
    """Present attributes replace the face's; each pair sets the default of the first axis with its tag."""
    own, axes, _ = of_face
    number = refusal(of_face, given, [value for _, value in pairs])
    attributes = tuple(mine if new is KEEP else new for new, mine in zip(given, own))
    for tag, value in pairs:
        for axis in axes:
            if axis[0] == tag:
                axis[2] = value
                break
    return line(name, number, attributes, axes)


def maybe_override_attributes(name, of_face, given):
    """Only attributes that equal the defaults are replaced."""
    own, axes, _ = of_face
    number = refusal(of_face, given, [])
    attributes = (
        given[0] if single(own[0]) == 1 else own[0],
        given[1] if own[1] == NORMAL else own[1],
        given[2] if single(own[2]) == 400 else own[2],
    )
    return line(name, number, attributes, axes)


def set_(name, ratio, style, weight):
    print(apply_override("set " + name, face(OWN, SLANT, 3), (ratio, style, weight), []))


def pairs(name, count, tags, values):
    # `zip` stops at the shorter of the two.
    print(apply_override("pairs " + name, face(OWN, SLANT, count), (KEEP, KEEP, KEEP), list(zip(tags, values))))


def own(name, attributes, fourth, count):
    print(apply_override("own " + name, face(attributes, fourth, count), (KEEP, KEEP, KEEP), []))
    print(maybe_override_attributes("own, maybe " + name, face(attributes, fourth, count), DEFAULT))


def maybe(name, attributes, given):
    print(maybe_override_attributes("maybe " + name, face(attributes, SLANT, 0), given))


set_("nothing", KEEP, KEEP, KEEP)
set_("width", 1.25, KEEP, KEEP)
set_("style normal", KEEP, NORMAL, KEEP)
set_("style unstated", KEEP, UNSTATED, KEEP)
set_("style stated", KEEP, degrees(-14.0), KEEP)
set_("weight", KEEP, KEEP, 650.5)

set_("all", 2.0, degrees(20.0), 900.0)
set_("defaults", 1.0, NORMAL, 400.0)
set_("zeros", 0.0, degrees(0.0), 0.0)
set_("minus zeros", -0.0, degrees(-0.0), -0.0)
set_("below zero", 0.5, degrees(-90.0), -1.5)

set_("ratio 16", 16.0, KEEP, KEEP)
set_("ratio over 16", 16.000002, KEEP, KEEP)
set_("ratio below 0", -0.001, KEEP, KEEP)
set_("ratio NaN", NAN, KEEP, KEEP)
set_("ratio infinite", INF, KEEP, KEEP)

set_("angle NaN", KEEP, degrees(NAN), KEEP)
set_("angle infinite", KEEP, degrees(-INF), KEEP)
set_("weight NaN", KEEP, KEEP, NAN)
set_("weight infinite", KEEP, KEEP, INF)

pairs("one", 3, ["wdth"], [75.0])
pairs("later wins", 3, ["wdth", "wght", "wdth"], [75.0, 650.0, 125.0])
pairs("repeated axis", 3, ["wght"], [650.0])
pairs("last of the count", 4, ["slnt"], [-10.0])

pairs("unknown tag", 3, ["opsz"], [12.0])
pairs("tag past the count", 3, ["slnt"], [-10.0])
pairs("no axes", 0, ["wght"], [650.0])

pairs("above the maximum", 3, ["wdth"], [1000.0])
pairs("below the minimum", 3, ["wdth"], [-5.0])
pairs("minus zero", 3, ["wdth"], [-0.0])

pairs("more tags", 3, ["wdth", "wght"], [75.0])
pairs("more values", 3, ["wdth"], [75.0, 650.0])
pairs("NaN past the tags", 3, ["wdth"], [75.0, NAN])

pairs("16 axes", 16, ["\0\0\0\0"], [7.0])
pairs("17 axes", 17, ["wght"], [650.0])
pairs("17 axes, NaN", 17, ["wght"], [NAN])

pairs("NaN", 3, ["wdth"], [NAN])
pairs("infinite", 3, ["wdth"], [INF])
pairs("NaN at an unknown tag", 3, ["wdth", "opsz"], [75.0, NAN])

own("no defaults", OWN, SLANT, 4)
own("defaults", DEFAULT, SLANT, 4)
own("16 axes", OWN, SLANT, 16)
own("NaN past the count", OWN, ("slnt", NAN, NAN, NAN), 3)

own("17 axes", OWN, SLANT, 17)
own("17 axes, ratio NaN", (NAN, NORMAL, 400.0), SLANT, 17)
own("17 axes, minimum NaN", OWN, ("slnt", NAN, 0.0, 15.0), 17)

own("minimum NaN", OWN, ("slnt", NAN, 0.0, 15.0), 4)
own("default infinite", OWN, ("slnt", -15.0, INF, 15.0), 4)
own("maximum infinite", OWN, ("slnt", -15.0, 0.0, -INF), 4)

own("ratio NaN", (NAN, NORMAL, 400.0), SLANT, 3)
own("ratio infinite", (INF, NORMAL, 400.0), SLANT, 3)
own("ratio over 16", (16.000002, NORMAL, 400.0), SLANT, 3)

own("angle NaN", (1.0, degrees(NAN), 400.0), SLANT, 3)
own("angle infinite", (1.0, degrees(INF), 400.0), SLANT, 3)
own("weight NaN", (1.0, NORMAL, NAN), SLANT, 3)
own("weight infinite", (1.0, NORMAL, -INF), SLANT, 3)

maybe("all are defaults", DEFAULT, GIVEN)
maybe("none is a default", OWN, GIVEN)
maybe("style alone", (0.75, NORMAL, 300.0), GIVEN)
maybe("style and weight", (0.75, NORMAL, 400.0), GIVEN)
maybe("width and style", (1.0, NORMAL, 300.0), GIVEN)
maybe("width and weight", (1.0, ITALIC, 400.0), GIVEN)

maybe("beside the defaults", (1.0000001, NORMAL, 400.00003), GIVEN)
maybe("unstated", (1.0, UNSTATED, 400.0), GIVEN)
maybe("stated 0", (1.0, degrees(0.0), 400.0), GIVEN)
maybe("minus zeros", MINUS_ZEROS, GIVEN)

maybe("given defaults", OWN, DEFAULT)
maybe("given unstated", DEFAULT, (1.0, UNSTATED, 400.0))
maybe("given minus zeros", DEFAULT, MINUS_ZEROS)
maybe("given ratio 16", DEFAULT, (16.0, NORMAL, 1.0))

maybe("given ratio NaN", OWN, (NAN, NORMAL, 400.0))
maybe("given ratio over 16", OWN, (16.000002, NORMAL, 400.0))
maybe("given angle NaN", OWN, (1.0, degrees(NAN), 400.0))
maybe("given weight infinite", OWN, (1.0, NORMAL, INF))
