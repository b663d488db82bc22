#!/usr/bin/env python3
"""Prints what `crates/family_cases` has to print.

    python3 tools/family_cases.py > crates/family_cases/stdout

The model is of docs/GUIDE.md: the refusals 19, 24 and 26 of calls on a family or face by value, and 25 before them
(section 6), and sections 4 and 5 as far as the cases go: every face of a family that is accepted is normal. It shares
nothing with the Rattle code but the cases, which stand there in the same order and under the same names.
"""
import math
import struct

NAN = math.nan
INF = math.inf
MOST = 2**64 - 1

# Attributes are (ratio, angle, weight), the angle None for normal. A face is (attributes, axes, count), with an axis
# (tag, minimum, default, maximum); its array has 16, and the count is a number beside them.
NORMAL = None
DEFAULT = (1.0, NORMAL, 400.0)


def varied(attributes, third, count):
    first = [("wght", 100.0, 400.0, 900.0), ("slnt", -15.0, 0.0, 15.0), ("wdth", 50.0, third, 200.0)]
    return attributes, first + [("\0\0\0\0", 0.0, 0.0, 0.0)] * 13, count


def normal(ratio, weight):
    return ratio, NORMAL, weight


def oblique(angle):
    return 1.0, angle, 400.0


def plain(attributes):
    return varied(attributes, 100.0, 0)


def weighing(weight):
    return plain(normal(1.0, weight))


def with_axes(count):
    return varied(DEFAULT, 100.0, count)


def faces(first, second, last):
    """The array of a family, of 64 faces."""
    return [first, second] + [plain(DEFAULT)] * 61 + [last]


def beside(face):
    return faces(weighing(300.0), face, weighing(700.0))


# Section 1: what is accepted.


def accepted(attributes):
    ratio, angle, weight = attributes
    return 0 <= ratio <= 16 and math.isfinite(weight) and (angle is NORMAL or math.isfinite(angle))


def accepted_face(face):
    attributes, axes, count = face
    return accepted(attributes) and all(math.isfinite(x) for axis in axes[:count] for x in axis[1:])


# Section 6: 19, 24 and 26, in that order, each over the whole input.


def over_limit(fonts, count):
    return count > 64 or any(axes > 16 for _, _, axes in fonts[:count])


def refusal(fonts, count, request):
    if over_limit(fonts, count):
        return 19
    if not all(accepted_face(face) for face in fonts[:count]) or not accepted(request):
        return 26
    return 0


# Section 4, for normal faces.


def tags(face):
    return [axis[0] for axis in face[1][: face[2]]]


def width_rank(wanted, percent):
    if percent == wanted:
        return 0, 0
    if wanted <= 100:
        return (1, -percent) if percent < wanted else (2, percent)
    return (1, percent) if percent > wanted else (2, -percent)


def weight_rank(wanted, weight, place):
    if weight == wanted:
        return 0, 0, place
    below, above = weight < wanted, weight > wanted
    if 400 <= wanted <= 500:
        turn = 2 if below else 1 if weight <= 500 else 3
    elif wanted < 400:
        turn = 1 if below else 2
    else:
        turn = 1 if above else 2
    return (turn, weight, place) if above else (turn, -weight, -place)


def choice(family, request, synthesis):
    """The place that is chosen, or None."""
    if len(family) < 2:
        return 0 if family else None
    percents = [int(face[0][0] * 100) for face in family]
    width = min(percents, key=lambda percent: width_rank(int(request[0] * 100), percent))
    places = [place for place, percent in enumerate(percents) if percent == width]
    # All are normal: an oblique finds its own style nowhere, and no angle on its side.
    if request[1] is not NORMAL and synthesis and any("slnt" in tags(family[place]) for place in places):
        return None
    return min(places, key=lambda place: weight_rank(request[2], family[place][0][2], place))


def equal_list(family, chosen):
    return [] if chosen is None else [place for place, face in enumerate(family) if face[0] == family[chosen][0]]


# Section 5: the tags that are set. A face that is not normal gets no setting of style.


def settings(face, request):
    own, found = face[0], []
    if "wdth" in tags(face) and own[0] != request[0]:
        found.append("wdth")
    if "wght" in tags(face) and face[1][tags(face).index("wght")][2] != request[2]:
        found.append("wght")
    if own[1] is NORMAL and request[1] is not NORMAL and "slnt" in tags(face):
        found.append("slnt")
    return found


# The lines.


def told(number, answer):
    return f"refused {number}" if number else answer()


def choose(name, fonts, count, request):
    family = fonts[:count]
    number = refusal(fonts, count, request)

    def place():
        chosen = choice(family, request, True)
        return "-" if chosen is None else str(chosen)

    def listed():
        places = equal_list(family, choice(family, request, True))
        return " ".join(str(x) for x in [len(places)] + places[:1])

    def default():
        return str(choice(family, DEFAULT, False) or 0)

    own = refusal(fonts, count, DEFAULT)
    print(f"match {name}: {told(number, place)}; {told(number, listed)}; {told(own, default)}")


def given_all(name, fonts, count):
    choose(name, fonts, count, DEFAULT)


def given(name, face, count):
    given_all(name, beside(face), count)


def asked(name, count, request):
    choose(name, beside(weighing(500.0)), count, request)


def fetch(name, fonts, count, place):
    """For a valid place nothing further is refused."""
    number = 19 if over_limit(fonts, count) else 0 if place < count else 24
    print(f"fetch {name}: {told(number, lambda: str(fonts[place][2]))}")


def fetch_three(name, count, place):
    fetch(name, faces(with_axes(3), with_axes(5), with_axes(7)), count, place)


def fetch_beside(name, face, count, place):
    fetch(name, beside(face), count, place)


def synthesize(name, face, request):
    number = 19 if face[2] > 16 else 0 if accepted_face(face) and accepted(request) else 26

    def made():
        found = settings(face, request)
        embolden = "wght" not in tags(face) and request[2] > face[0][2] + 200
        slots = [tag.encode().hex() for tag in found] + ["00000000"] * (3 - len(found))
        return " ".join(["b" if embolden else "-", str(len(found))] + slots)

    print(f"synthesis {name}: {told(number, made)}")


def slant_value(reading, degrees):
    """What `slnt` is set to: the degrees as they are, or under reading 1 the opposite, a zero being positive."""
    return degrees if reading == 0 else 0.0 if degrees == 0 else -degrees


def slant(name, face, request):
    for reading in [0, 1, 2, 2**32 - 1]:
        number = 19 if face[2] > 16 else 0 if accepted_face(face) and accepted(request) else 26

        def made():
            set_to = {tag: slant_value(reading, request[1]) for tag in settings(face, request)}
            skewed = face[0][1] is NORMAL and request[1] is not NORMAL and not set_to
            skew = [str(int(request[1]) if skewed else 0)]
            return " ".join(skew + [f"{tag}={struct.pack('>f', value).hex()}" for tag, value in set_to.items()])

        print(f"slant {name}, reading {reading}: {told(number if reading < 2 else 25, made)}")


MANY = with_axes(17)
ENDLESS = weighing(INF)
EMPTY = plain(DEFAULT)
WANTED = normal(0.75, 900.0)
WITHOUT_END = normal(1.0, INF)
NO_NUMBERS = varied(WITHOUT_END, NAN, 4)

asked("no face", 0, DEFAULT)
choose("no face, oblique", beside(with_axes(2)), 0, oblique(14.0))
asked("one face", 1, normal(1.0, 900.0))
choose("one face, slant", faces(with_axes(2), with_axes(2), with_axes(2)), 1, oblique(14.0))
choose("two faces, slant", beside(with_axes(2)), 2, oblique(14.0))
asked("two faces, no slant", 2, oblique(14.0))

asked("63 faces", 63, DEFAULT)
asked("64 faces", 64, normal(1.0, 700.0))
asked("65 faces", 65, DEFAULT)
asked("most faces", MOST, DEFAULT)
given("16 axes", with_axes(16), 2)
given("17 axes", MANY, 2)
given("most axes", with_axes(MOST), 2)
given("17 axes past the count", MANY, 1)

given("weight infinite", ENDLESS, 2)
given("weight NaN", weighing(NAN), 2)
given("weight infinite past the count", ENDLESS, 1)
given("angle infinite", plain(oblique(-INF)), 2)
given("ratio 16", plain(normal(16.0, 400.0)), 2)
given("ratio over 16", plain(normal(16.000002, 400.0)), 2)
given("axis NaN", varied(DEFAULT, NAN, 3), 2)
given("axis NaN past the axes", varied(DEFAULT, NAN, 2), 2)

given_all("weight infinite, no face", faces(ENDLESS, EMPTY, EMPTY), 0)
given_all("weight infinite, one face", faces(ENDLESS, EMPTY, EMPTY), 1)
given_all("weight infinite at the last of 64", faces(EMPTY, EMPTY, ENDLESS), 64)
given_all("17 axes at the last of 64", faces(EMPTY, EMPTY, MANY), 64)

given("both in one face", varied(WITHOUT_END, 100.0, 17), 2)
given("65 faces, weight infinite", ENDLESS, 65)
given_all("weight infinite, then 17 axes", faces(ENDLESS, MANY, ENDLESS), 2)
given_all("17 axes, then weight infinite", faces(MANY, ENDLESS, ENDLESS), 2)
given_all("weight infinite, 17 axes at the last of 64", faces(ENDLESS, ENDLESS, MANY), 64)

asked("request ratio 16", 2, normal(16.0, 400.0))
asked("request ratio over 16", 2, normal(16.000002, 400.0))
asked("request angle infinite", 2, oblique(INF))
asked("request weight NaN", 2, normal(1.0, NAN))

asked("no face, request infinite", 0, WITHOUT_END)
asked("one face, request infinite", 1, WITHOUT_END)
asked("two faces, request infinite", 2, WITHOUT_END)
asked("65 faces, request infinite", 65, WITHOUT_END)
choose("17 axes, request infinite", beside(MANY), 2, WITHOUT_END)
choose("weight and request infinite", beside(ENDLESS), 2, WITHOUT_END)

fetch_three("first of two", 2, 0)
fetch_three("last of two", 2, 1)
fetch_three("last of 64", 64, 63)
fetch_three("the count, of two", 2, 2)
fetch_three("the count, of 64", 64, 64)
fetch_three("most, of 64", 64, MOST)
fetch_three("of no face", 0, 0)
fetch_three("first of 65", 65, 0)
fetch_three("the count, of 65", 65, 65)

fetch_beside("16 axes", with_axes(16), 2, 1)
fetch_beside("17 axes", MANY, 2, 1)
fetch_beside("17 axes at another place", MANY, 2, 0)
fetch_beside("17 axes, the count", MANY, 2, 2)
fetch_beside("17 axes past the count", MANY, 1, 0)

fetch_beside("weight infinite", NO_NUMBERS, 2, 1)
fetch_beside("weight infinite at another place", NO_NUMBERS, 2, 0)
fetch_beside("weight infinite, the count", NO_NUMBERS, 2, 2)
fetch("weight infinite, then 17 axes", faces(NO_NUMBERS, MANY, NO_NUMBERS), 2, 0)

synthesize("nothing", weighing(300.0), normal(1.0, 300.0))
synthesize("embolden", weighing(300.0), WANTED)
synthesize("wght alone", with_axes(1), WANTED)
synthesize("slnt", with_axes(2), oblique(14.0))
synthesize("wdth and wght", with_axes(16), WANTED)
synthesize("NaN past the axes", varied(DEFAULT, NAN, 2), WANTED)

synthesize("17 axes", MANY, WANTED)
synthesize("17 axes, request infinite", MANY, WITHOUT_END)
synthesize("17 axes, weight infinite", varied(WITHOUT_END, 100.0, 17), WANTED)
synthesize("weight infinite", plain(WITHOUT_END), WANTED)
synthesize("axis NaN", varied(DEFAULT, NAN, 3), WANTED)
synthesize("request infinite", weighing(300.0), WITHOUT_END)
synthesize("request NaN", weighing(300.0), oblique(NAN))
synthesize("request ratio over 16", weighing(300.0), normal(16.000002, 300.0))

slant("oblique 12", with_axes(2), oblique(12.0))
slant("oblique -12", with_axes(2), oblique(-12.0))
slant("oblique 0", with_axes(2), oblique(0.0))
slant("oblique -0", with_axes(2), oblique(-0.0))
slant("oblique 1e-45", with_axes(2), oblique(2.0**-149))
slant("normal", with_axes(2), DEFAULT)
slant("no axis", with_axes(0), oblique(12.0))
slant("17 axes", MANY, oblique(12.0))
slant("request infinite", with_axes(2), oblique(INF))
slant("an oblique face", plain(oblique(-12.0)), oblique(12.0))
