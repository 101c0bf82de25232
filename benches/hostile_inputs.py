"""Inputs made to harm: those at limits, by negative numbers, and those made from the examples, by numbers from 0 on."""
import os
import random

EXAMPLES = ("touching_discs", "two_layer", "four_layers", "round_board", "opens_and_shorts")
M1 = b'{"copper":["t.gbr"],"drills":[],"netlist":"n.ipc"}'
M2 = b'{"copper":["t.gbr"],"drills":[{"file":"d.drl","from":1,"to":1}],"netlist":"n.ipc"}'
MOST = 67_108_864
# A made input's file that is longer is not changed further.
MOST_MADE = 200_000
# Of the made inputs, so many are trials.
TRIALS = 0.01
REPORT = (
    b"boardnet 1\npieces 2\nnets 1\nnet 0 0 1:0\nnames 1\nname 0 A\npoints 0\nopens 0\nshorts 0\nmissing 0\nagrees\n"
)
NUMBERS = (
    0,
    1,
    2,
    255,
    256,
    32,
    33,
    64,
    65,
    999,
    1000,
    1001,
    65_535,
    65_536,
    65_537,
    99_999,
    100_000,
    100_001,
    199_999,
    200_000,
    200_001,
    1_999_999,
    2_000_001,
    2**31 - 1,
    2**31,
    2**32 - 1,
    2**32,
    2**63 - 1,
    2**63,
    2**64 - 1,
    2**64,
    10**10 - 1,
    10**10,
    10**10 + 1,
    9_999_999_999_999,
    10**13,
    10**18 - 1,
    10**18,
    10**19,
    2**127,
    2**128,
)
WORDS = (
    b"%TO.N,A*%",
    b"%TO.N*%",
    b"%TD*%",
    b"%TO.N," + b"N" * 201 + b"*%",
    b"$1",
    b"$2+$3",
    b"$999",
    b"1,1,$1,0,0*",
    b"4,1,3,0,0,1,0,0,1,0,0,0*",
    b"20,1,1,0,0,1,0,0*",
    b"21,1,1,1,0,0,90*",
    b"spots 0",
    b"sources 0",
    b"spot 0 -0 1",
    b"%",
    b"*",
    b"%%",
    b"**",
    b"\r",
    b"\n",
    b"\0",
    b"\xff",
    b" ",
    b"\t",
    b",",
    b"X",
    b"Y",
    b"I1J1",
    b"D01",
    b"D02",
    b"D03",
    b"D10",
    b"G36*",
    b"G37*",
    b"M02*",
    b"%SRX2Y2I1.0J1.0*%",
    b"%SR*%",
    b"%SRX999999999Y999999999I0J0*%",
    b"%ADD10C,1.0*%",
    b"%ADD11R,1X1*%",
    b"%AMA*1,1,1,0,0*%",
    b"%LPC*%",
    b"%MOIN*%",
    b"%FSLAX46Y46*%",
    b"G85",
    b"G00",
    b"G01X1.0",
    b"M15",
    b"M16",
    b"M30",
    b"M48",
    b"%\n",
    b"T1C0.4",
    b"T1",
    b"METRIC",
    b"INCH",
    b"; #@! TF.FileFunction,Plated,1,2",
    b"999",
    b"327A",
    b"317",
    b"017",
    b"P  UNITS CUST 0",
    b"C ",
    b"{",
    b"}",
    b"[",
    b"]",
    b'"',
    b"\\u0000",
    b"null",
    b"1e999",
    b"-0",
    b".",
    b"+",
    b"-",
    b"1.0000001",
    b"-",
    b"net ",
    b":",
    b"short 0 2",
    b"open 0 0 1 1",
    b"branch 0 0 0",
    b"bare 0",
    b"agrees",
    b"differs",
)


class Made:
    """An input: what it is, its files or the words of a trial, how many pairs of its pieces touch where these are most pairs, and how
    many bytes of macros its definitions of apertures and its pieces go through where these are most of the work."""

    def __init__(self, what, files=None, trial=None, pairs=0, text=0):
        self.what, self.files, self.trial, self.pairs, self.text = what, files or {}, trial, pairs, text

    def has(self, text):
        return any(text in data for data in self.files.values())

    def size(self):
        """The bytes that are taken: a file counts as often as the manifest names it, which it may 97 times."""
        manifest = self.files.get("m.json", b"")
        return sum(
            len(data) * min(97, max(1, manifest.count(b'"%s"' % name.encode()))) for name, data in self.files.items()
        )


def gerber(*lines):
    return b"\n".join([b"%FSLAX46Y46*%", b"%MOMM*%", *lines, b"M02*"]) + b"\n"


def record(code, name, access, x, y):
    def field(value):
        return (b"-" if value < 0 else b"+") + b"%06d" % abs(value)

    return code + name.ljust(14) + b" " * 21 + b"A" + access + b"X" + field(x) + b"Y" + field(y)


def netlist(*records):
    return b"\n".join([b"P  UNITS CUST 1", *records, b"999"]) + b"\n"


def package(copper=None, points=None, manifest=M1, **more):
    files = {
        "m.json": manifest,
        "t.gbr": gerber() if copper is None else copper,
        "n.ipc": netlist() if points is None else points,
    }
    files.update({name.replace("_", "."): data for name, data in more.items()})
    return files


def with_macros():
    """A package whose copper has the rounded, chamfered and turned pads of usual tools, as macros."""
    rounded = [b"0 Rectangle with rounded corners", b"0 $1 Rounding radius", b"4,1,4,$2,$3,$4,$5,$6,$7,$8,$9,$2,$3,0"]
    rounded += [b"1,1,$1+$1,$%d,$%d" % (k, k + 1) for k in (2, 4, 6, 8)]
    rounded += [b"20,1,$1+$1,$%d,$%d,$%d,$%d,0" % (k, k + 1, k % 8 + 2, k % 8 + 3) for k in (2, 4, 6, 8)]
    freely = [b"4,1,3,$1,$2,$3,$4,$5,$6,$1,$2,270", b"21,1,0.4,-$2+0.8,0.1-$1,0,90", b"1,1,0.0,0,0"]
    lines = [
        b"%AMRoundRect*" + b"*\n".join(rounded) + b"*%",
        b"%AMFree*" + b"*".join(freely) + b"*%",
        b"%ADD10C,1.0*%",
        b"%ADD11RoundRect,0.25X-0.4X0.3X-0.4X-0.3X0.4X-0.3X0.4X0.3*%",
        b"%ADD12Free,0X0.5X-0.3X0.1X0.3X-0.1*%",
    ]
    lines += [
        b"%TO.N,A*%",
        b"D11*",
        b"X0Y0D03*",
        b"D12*",
        b"X1000000Y0D03*",
        b"%TO.N,B*%",
        b"D10*",
        b"X2000000Y2000000D02*",
        b"X5000000Y2000000D01*",
        b"%TD*%",
        b"D11*",
        b"X5000000Y0D03*",
    ]
    return package(gerber(*lines), netlist(record(b"327", b"A", b"01", 0, 0), record(b"327", b"B", b"01", 2000, 2000)))


def with_labels():
    """A package of two layers whose copper has net names, and a repeated block."""
    top = [
        b"%ADD10C,0.5*%",
        b"%ADD11R,0.8X0.6*%",
        b"%TO.N,GND*%",
        b"D10*",
        b"X0Y0D03*",
        b"X2000000Y0D01*",
        b"%TO.N,N/C*%",
        b"D11*",
        b"X0Y3000000D03*",
        b"%TO.N,VCC*%",
        b"%SRX2Y2I2.0J2.0*%",
        b"X5000000Y5000000D03*",
        b"%SR*%",
        b"%TO.N*%",
        b"X9000000Y0D03*",
        b"%TD.N*%",
        b"G36*",
        b"X0Y8000000D02*",
        b"X1000000Y8000000D01*",
        b"X0Y9000000D01*",
        b"X0Y8000000D01*",
        b"G37*",
    ]
    files = package(
        gerber(*top), netlist(record(b"317", b"GND", b"00", 0, 0), record(b"327", b"VCC", b"01", 5000, 5000))
    )
    files["m.json"] = b'{"copper":["t.gbr","b.gbr"],"drills":[{"file":"d.drl","from":1,"to":2}],"netlist":"n.ipc"}'
    files["b.gbr"] = gerber(b"%TO.N,GND*%", b"%ADD10C,0.5*%", b"D10*", b"X0Y0D03*", b"%TO.N,A B*%", b"X4000000Y0D03*")
    files["d.drl"] = drill(b"X0.0Y0.0", b"X2.0Y0.0")
    return files


def drill(*lines):
    return b"\n".join([b"M48", b"METRIC", b"T1C0.4", b"%", b"T1", *lines, b"M30"]) + b"\n"


def contour(edges):
    """A contour of so many edges: a comb along the x axis."""
    points = [b"X%dY%dD01*" % (1000 * k, 1_000_000 if k % 2 else 0) for k in range(1, edges - 1)]
    return [b"G36*", b"X0Y0D02*", *points, b"X%dY5000000D01*" % (1000 * edges), b"X0Y0D01*", b"G37*"]


def comb(edges, left, way):
    """A comb of so many edges, four a tooth, whose teeth point in x; one from the right has its teeth between those from the left."""
    pitch, shift = 4000, 0 if way > 0 else 2000
    points = [(left, shift)]
    for k in range((edges - 4) // 4):
        y = pitch * k + shift
        points += [
            (left + way * 90_000_000, y),
            (left + way * 90_000_000, y + 1000),
            (left + way * 1_000_000, y + 1000),
            (left + way * 1_000_000, y + pitch),
        ]
    points += [(left, points[-1][1]), (left, shift)]
    return [b"G36*", b"X%dY%dD02*" % points[0], *[b"X%dY%dD01*" % point for point in points[1:]], b"G37*"]


def padded(start, filler, end, size):
    """A text of exactly this size: filler repeated between start and end, and line feeds for what is left."""
    times, left = divmod(size - len(start) - len(end), len(filler))
    return start + filler * times + b"\n" * left + end


def files_at_the_limit():
    """Each kind of file at 67,108,864 bytes and one byte more."""
    for size in (MOST, MOST + 1):
        yield f"a manifest of {size} bytes", lambda size=size: Made("", package(manifest=padded(M1, b" ", b"\n", size)))
        yield f"a copper file of {size} bytes in blanks", lambda size=size: Made(
            "", package(padded(b"%FSLAX46Y46*%\n%MOMM*%\n", b"\n", b"M02*\n", size))
        )
        yield f"a copper file of {size} bytes in one comment", lambda size=size: Made(
            "", package(padded(b"%FSLAX46Y46*%\n%MOMM*%\nG04 ", b"x", b"*M02*\n", size))
        )
        yield f"a copper file of {size} bytes in empty words", lambda size=size: Made(
            "", package(padded(b"%FSLAX46Y46*%\n%MOMM*%\n", b"*", b"M02*\n", size))
        )
        yield f"a copper file of {size} bytes in moves", lambda size=size: Made(
            "", package(padded(b"%FSLAX46Y46*%\n%MOMM*%\n", b"X1Y1D02*", b"M02*\n", size))
        )
        yield f"a drill file of {size} bytes", lambda size=size: Made(
            "", package(manifest=M2, d_drl=padded(b"M48\nMETRIC\n%\n", b"\n", b"M30\n", size))
        )
        yield f"a netlist of {size} bytes", lambda size=size: Made(
            "", package(points=padded(b"P  UNITS CUST 1\n", b"C x\n", b"\n999\n", size))
        )
        yield f"a netlist of {size} bytes in one line", lambda size=size: Made(
            "", package(points=padded(b"P  UNITS CUST 1\nC", b"x", b"\n999\n", size))
        )
        yield f"a report of {size} bytes", lambda size=size: Made(
            "", package(r_txt=padded(b"boardnet 1\npieces 0\nnets 0\nnames 1\nname 0 ", b"x", b"\n", size))
        )
        yield f"a report of {size} bytes in twigs", lambda size=size: Made(
            "", package(r_txt=padded(b"boardnet 1\npieces 0\nnets 1\nnet 0", b" 1", b"\n", size))
        )
        yield f"a report of {size} bytes in nets", lambda size=size: Made(
            "", package(r_txt=padded(b"boardnet 1\npieces 0\nnets 9999999\n", b"net 0\n", b"\n", size))
        )


def boards_at_limits():
    """Records, pieces, edges, apertures, tools and layers at their limits and past them."""
    discs = [b"%ADD10C,1.0*%", b"D10*"]
    for count in (200_000, 200_001):
        yield f"{count} records", lambda n=count: Made(
            "",
            package(
                gerber(*discs, b"X0Y0D03*"),
                netlist(*[record(b"327", b"N%d" % (k % 7), b"01", k % 500, 0) for k in range(n)]),
            ),
        )
        yield f"{count} names", lambda n=count: Made(
            "",
            package(gerber(*discs, b"X0Y0D03*"), netlist(*[record(b"327", b"N%d" % k, b"01", 0, 0) for k in range(n)])),
        )
        yield f"{count} flashes apart", lambda n=count: Made(
            "",
            package(
                gerber(
                    b"%ADD10C,0.1*%",
                    b"D10*",
                    *[b"X%dY%dD03*" % (200_000 * (k % 500), 200_000 * (k // 500)) for k in range(n)],
                )
            ),
        )
        yield f"{count} draws in a chain", lambda n=count: Made(
            "",
            package(
                gerber(
                    b"%ADD10C,0.1*%",
                    b"D10*",
                    *[b"X%dY%dD01*" % (200_000 * (k % 500), 200_000 * (k // 500)) for k in range(n)],
                )
            ),
        )
        yield f"{count} hits", lambda n=count: Made(
            "", package(manifest=M2, d_drl=drill(*[b"X%d.%dY%d.0" % (k % 250, k % 10, k // 1000) for k in range(n)]))
        )
    for name, words in (
        ("just fit", b"%SRX400Y500I0.7J0.5*%"),
        ("just do not fit", b"%SRX401Y500I0.7J0.5*%"),
        ("are absurdly many", b"%SRX999999999Y999999999I0.1J0.1*%"),
        ("leave the board", b"%SRX400Y500I5.0J5.0*%"),
    ):
        yield f"a block whose copies {name}", lambda w=words: Made(
            "", package(gerber(b"%ADD10C,0.4*%", b"D10*", w, b"X0Y0D03*", b"%SR*%"))
        )
    yield "an empty block of absurdly many copies", lambda: Made(
        "", package(gerber(b"%SRX999999999Y999999999I0J0*%", b"%SR*%"))
    )
    yield "20,000 empty blocks of absurdly many copies", lambda: Made(
        "", package(gerber(*[b"%SRX999999999Y999999999I0J0*%", b"%SR*%"] * 20_000))
    )
    for edges in (99_999, 100_000, 100_001):
        yield f"a contour of {edges} edges", lambda n=edges: Made(
            "", package(gerber(*contour(n)), netlist(record(b"327", b"A", b"01", 0, 0)))
        )
    for edges in (1_000, 10_000):
        yield f"two combs of {edges} edges that lie in one another and do not touch", lambda n=edges: Made(
            "", package(gerber(*comb(n, 0, 1), *comb(n, 100_000_000, -1)))
        )
    for count in (2_000, 20_000):
        yield f"{count} copies at one place", lambda n=count: Made(
            "", package(gerber(b"%ADD10C,0.4*%", b"D10*", b"%%SRX%dY1I0J0*%%" % n, b"X0Y0D03*", b"%SR*%")), pairs=n * n
        )
    yield "20 contours at the limit", lambda: Made("", package(gerber(*contour(100_000) * 20)))
    yield "20 contours at the limit and one more edge", lambda: Made(
        "", package(gerber(*contour(100_000) * 20, b"%ADD10R,1X1*%", b"D10*", b"X0Y0D03*"))
    )
    for count in (65_536, 65_537):
        yield f"{count} apertures", lambda n=count: Made(
            "", package(gerber(*[b"%%ADD%dC,1.0*%%" % (10 + k) for k in range(n)]))
        )
    for count in (1000, 1001):
        yield f"{count} tools", lambda n=count: Made(
            "",
            package(
                manifest=M2, d_drl=b"M48\nMETRIC\n" + b"".join(b"T%dC1.0\n" % (k + 1) for k in range(n)) + b"%\nM30\n"
            ),
        )
    for layers, drills in ((32, 64), (33, 64), (32, 65)):
        yield f"{layers} layers and {drills} drill files", lambda n=layers, d=drills: Made(
            "",
            {
                "m.json": b'{"copper":['
                + b",".join(b'"t.gbr"' for _ in range(n))
                + b'],"drills":['
                + b",".join(b'{"file":"d.drl","from":1,"to":%d}' % n for _ in range(d))
                + b'],"netlist":"n.ipc"}',
                "t.gbr": gerber(*discs, b"X0Y0D03*"),
                "d.drl": drill(b"X0.0Y0.0"),
                "n.ipc": netlist(record(b"317", b"A", b"00", 0, 0)),
            },
        )
    for x in (3 * 10**9 // 10 - 1_000_000, 3 * 10**9 // 10 - 999_999, 999_999_999, 1_000_000_000, 1_000_000_001):
        yield f"a flash at {x}", lambda x=x: Made("", package(gerber(*discs, b"X0Y0D03*", b"X%dY%dD03*" % (x, x))))


def with_macro(body, *lines):
    """A copper file of one macro with this body, and an aperture of it."""
    return gerber(b"%AMM*" + b"*".join([*body, b"%"]), b"%ADD10M,1.0X0.5*%", b"D10*", *lines)


def grid(count):
    """So many flashes, 0.2 mm apart in rows of 500."""
    return [b"X%dY%dD03*" % (200_000 * (k % 500), 200_000 * (k // 500)) for k in range(count)]


def macros_at_limits():
    """Bodies, expressions, primitives, radii and flashes of macros at their limits and past them."""
    disc, empty = b"1,1,0.1,0,0", b"1,1,0,0,0"
    zero, long = b"+".join([b"0"] * 64), b"+".join([b"0.00000000000000000"] * 64)
    long_empty, long_disc = b"1,1," + b",".join([zero] * 3), b"1,1,0.1,%s,%s" % (long, long)
    for count in (256, 257):
        yield f"a macro of {count} primitives", lambda n=count: Made("", package(with_macro([disc] * n, *grid(10))))
    for count in (781, 782):
        yield f"{count} flashes of 256 primitives", lambda n=count: Made(
            "", package(with_macro([disc] * 256, *grid(n))), pairs=n * 256**2
        )
    for count in (64, 65):
        yield f"a length of {count} terms", lambda n=count: Made(
            "", package(with_macro([b"1,1," + b"+".join([b"$1"] * n) + b",-$2,$2-$1"], *grid(10)))
        )
    for number in (999, 1000, 10**30):
        yield f"the parameter ${number}", lambda n=number: Made(
            "", package(with_macro([b"1,1,$1,$%d,0" % n], *grid(10)))
        )
    for count in (5_000, 5_001):
        outline = (
            b"4,1,%d,0,0," % count + b",".join(b"%d.0,%d.0" % (k % 900, k % 2) for k in range(1, count)) + b",0,0,90"
        )
        yield f"an outline of {count} corners", lambda o=outline: Made("", package(with_macro([o], *grid(3))))
        for flashes in (200, 201):
            yield f"{flashes} flashes of an outline of {count} corners", lambda o=outline, n=flashes: Made(
                "", package(with_macro([o.replace(b".0", b".0001")], *[b"X0Y0D03*"] * n))
            )
    yield "an outline of 10^18 corners", lambda: Made("", package(with_macro([b"4,1,%d,0,0,0" % 10**18], *grid(1))))
    for count in (32_768, 32_769):
        yield f"{2 * count} radii", lambda n=count: Made(
            "",
            package(
                gerber(
                    b"%AMM*1,1,$1,0,0*1,1,$2,1,0*%",
                    *[
                        b"%%ADD%dM,0.%07dX1.%07d*%%\nD%d*\nX%dY0D03*" % (10 + k, 2 * k + 2, 2 * k, 10 + k, 1000 * k)
                        for k in range(n)
                    ],
                )
            ),
        )
    for count in (65_536, 65_537):
        yield f"{count} apertures of a macro", lambda n=count: Made(
            "", package(gerber(b"%AMM*1,1,$1,0,0*%", *[b"%%ADD%dM,1.0*%%" % (10 + k) for k in range(n)]))
        )
        yield f"{count} macros", lambda n=count: Made(
            "", package(gerber(*[b"%%AMM%d*1,1,$1,0,0*%%" % k for k in range(n)]))
        )
    for primitive, kind in ((empty, ""), (long_empty, " and of 64 terms a length")):
        for count in (1_000, 100_000, 1_000_000):
            yield f"{count} flashes of 256 primitives without an image{kind}", lambda p=primitive, n=count: Made(
                "", package(with_macro([p] * 256, *[b"D03*"] * n))
            )
    yield "200,000 flashes of a disc behind 255 primitives without an image and of 64 terms a length", lambda: Made(
        "", package(with_macro([long_empty] * 255 + [disc], *grid(200_000)))
    )
    yield from macros_by_their_text(long_disc, long_empty)
    yield "an aperture of a macro with 1,000,000 parameters", lambda: Made(
        "",
        package(
            gerber(b"%AMM*1,1,$1,0,0*%", b"%ADD10M," + b"X".join([b"1"] * 1_000_000) + b"*%", b"D10*", b"X0Y0D03*")
        ),
    )
    yield "a body of 1,000,000 comments", lambda: Made("", package(with_macro([b"0"] * 1_000_000, b"X0Y0D03*")))
    for size in (MOST, MOST + 1):
        yield f"a copper file of {size} bytes in one body", lambda n=size: Made(
            "", package(padded(b"%FSLAX46Y46*%\n%MOMM*%\n%AMM*", b"0 x*", b"%M02*\n", n))
        )
        yield f"a copper file of {size} bytes in one name of a macro", lambda n=size: Made(
            "", package(padded(b"%FSLAX46Y46*%\n%MOMM*%\n%AM", b"M", b"*%M02*\n", n))
        )


def macros_by_their_text(disc, empty):
    """Macros whose text is gone through most often: by each piece that a flash makes, and by each definition of an aperture."""
    yield "781 flashes of 256 discs of 64 terms a length, each of 18 digits", lambda: Made(
        "", package(with_macro([disc] * 256, *grid(781))), text=781 * 256 * len(disc)
    )
    corner = b",".join([b"+".join([b"0"] * 64)] * 2)
    outline = b"4,1,5000," + b",".join([b"0,0", *[b"%d+%s" % (k % 3, corner[2:]) for k in range(1, 5_000)], b"0,0,0"])
    yield "200 flashes of an outline of 5,000 corners of 64 terms a length", lambda: Made(
        "", package(with_macro([outline], *grid(200))), text=200 * len(outline)
    )
    for count, times, primitive in (
        (65_536, 1, empty),
        (65_536, 256, b"1,1,0,0,0"),
        (1_000, 256, empty),
        (1_000, 256, disc),
        (100, 1, outline),
    ):
        yield f"{count} apertures of a macro of {times * len(primitive)} bytes", lambda n=count, t=times, p=primitive: Made(
            "",
            package(gerber(b"%AMM*" + b"*".join([*[p] * t, b"%"]), *[b"%%ADD%dM,1.0*%%" % (10 + k) for k in range(n)])),
            text=n * t * len(p),
        )


def labels_at_limits():
    """Net names in copper files: as long as they may be and longer, as many as files have room for, and odd ones."""
    flash = (b"%ADD10C,0.1*%", b"D10*")
    for size in (200, 201, 10_000_000):
        yield f"a net name of {size} bytes", lambda n=size: Made(
            "", package(gerber(*flash, b"%TO.N," + b"N" * n + b"*%", b"X0Y0D03*"))
        )
    for count in (200_000, 200_001):
        yield f"{count} flashes, each with a net name of its own", lambda n=count: Made(
            "", package(gerber(*flash, *[b"%%TO.N,N%d*%%%s" % (k, it) for k, it in enumerate(grid(n))]))
        )
        yield f"{count} flashes of one net name", lambda n=count: Made(
            "", package(gerber(*flash, b"%TO.N,A*%", *grid(n)))
        )
    yield "32 layers of one file with 6,000 net names", lambda: Made(
        "",
        package(
            gerber(*flash, *[b"%%TO.N,N%d*%%%s" % (k, it) for k, it in enumerate(grid(6_000))]),
            manifest=M1.replace(b'"t.gbr"', b",".join([b'"t.gbr"'] * 32)),
        ),
    )
    for size in (MOST, MOST + 1):
        yield f"a copper file of {size} bytes in net names", lambda n=size: Made(
            "", package(padded(b"%FSLAX46Y46*%\n%MOMM*%\n", b"%TO.N,A*%", b"M02*\n", n))
        )
        yield f"a copper file of {size} bytes in names that end", lambda n=size: Made(
            "", package(padded(b"%FSLAX46Y46*%\n%MOMM*%\n", b"%TD*%", b"M02*\n", n))
        )
    yield "a net name with 1,000,000 fields behind it", lambda: Made(
        "", package(gerber(*flash, b"%TO.N,A" + b"," * 1_000_000 + b"*%", b"X0Y0D03*"))
    )
    yield "a net name that is no text", lambda: Made("", package(gerber(*flash, b"%TO.N,\xc3\xa9*%", b"X0Y0D03*")))


def texts_at_limits():
    """JSON that is deep, huge or odd, reports with absurd counts, and very long lines."""
    for depth in (127, 128, 129, 100_000, 10_000_000):
        yield f"JSON of depth {depth}", lambda n=depth: Made("", package(manifest=b"[" * n + b"]" * n))
        yield f"JSON of depth {depth} in a key", lambda n=depth: Made(
            "", package(manifest=b'{"copper":' * n + b"1" + b"}" * n)
        )
    yield "a manifest of a million keys", lambda: Made(
        "", package(manifest=b"{" + b",".join(b'"k%d":0' % k for k in range(1_000_000)) + b"}")
    )
    yield "a manifest of one key a million times", lambda: Made(
        "", package(manifest=M1[:-1] + b',"drills":[]' * 1_000_000 + b"}")
    )
    yield "a manifest of a million layers", lambda: Made(
        "", package(manifest=M1.replace(b'"t.gbr"', b",".join([b'"t.gbr"'] * 1_000_000)))
    )
    yield "a number of a million digits", lambda: Made(
        "", package(manifest=M2.replace(b":1,", b":" + b"1" * 1_000_000 + b","))
    )
    yield "a text of a million escapes", lambda: Made(
        "", package(manifest=M1.replace(b"t.gbr", b"\\u0074" * 1_000_000))
    )
    for count in (0, 1, 2**31, 2**32 - 1, 2**32, 2**64 - 1, 2**64, 10**30):
        for part in (b"pieces", b"nets", b"names", b"points", b"opens", b"shorts", b"missing"):
            yield f"a report of {count} {part.decode()}", lambda n=count, part=part: Made(
                "", package(r_txt=report_with(part, n))
            )
        for part in (b"spots", b"sources"):
            yield f"a report of {count} {part.decode()}", lambda n=count, part=part: Made(
                "", package(r_txt=report_with(part, n, 2))
            )
    for size in (10_000, 10_000_000):
        yield f"a Gerber word of {size} bytes", lambda n=size: Made("", package(gerber(b"X" + b"1" * n + b"D03*")))
        yield f"an aperture of {size} parameters", lambda n=size: Made(
            "", package(gerber(b"%ADD10C," + b"1X" * n + b"*%"))
        )
        yield f"an attribute of {size} fields", lambda n=size: Made(
            "", package(gerber(b"%TF.FileFunction," + b"," * n + b"*%"))
        )
        yield f"a drill line of {size} bytes", lambda n=size: Made(
            "", package(manifest=M2, d_drl=drill(b"X" + b"1" * n + b".0Y0.0"))
        )
        yield f"a record of {size} bytes", lambda n=size: Made(
            "", package(points=netlist(record(b"327", b"A", b"01", 0, 0) + b"x" * n))
        )
        yield f"a name of {size} bytes", lambda n=size: Made("", package(manifest=M1.replace(b"t.gbr", b"x" * n)))


def report_with(part, count, version=1):
    """The report of an empty board with another count in one of its lines."""
    parts = (b"pieces", b"nets", b"names", b"points", b"opens", b"shorts", b"missing") + (
        (b"spots", b"sources") if version == 2 else ()
    )
    lines = [b"boardnet %d" % version] + [it + b" 0" for it in parts] + [b"agrees", b""]
    return b"\n".join(lines).replace(part + b" 0", part + b" %d" % count)


def trials():
    for seed, size in (
        ("0", "0"),
        ("1", "1"),
        ("1", "100"),
        ("18446744073709551615", "400"),
        ("18446744073709551616", "1"),
        ("1", "12000"),
        ("1", "40000"),
        ("1", "200000"),
        ("1", "4294967295"),
        ("1", "4294967296"),
        ("01", "1"),
        ("1", ""),
        ("-1", "1"),
        ("1", "9" * 1000),
    ):
        yield f"trial {seed} {size[:20]}", lambda seed=seed, size=size: Made("", trial=[seed, size])


class Maker:
    """Makes each input by its number alone."""

    def __init__(self, top, seed):
        self.seed = seed
        self.at_limits = [
            *files_at_the_limit(),
            *boards_at_limits(),
            *macros_at_limits(),
            *labels_at_limits(),
            *texts_at_limits(),
            *trials(),
        ]
        self.packages = [self.read(os.path.join(top, "examples", name)) for name in EXAMPLES]
        self.packages += [(files, REPORT) for files in (with_macros(), with_labels())]

    def read(self, folder):
        files = {}
        for name in sorted(os.listdir(folder)):
            if name != "README.md":
                with open(os.path.join(folder, name), "rb") as file:
                    files[name] = file.read()
        return files, files.pop("report.txt", REPORT)

    def limits(self):
        return len(self.at_limits)

    def made(self, index):
        if index < 0:
            what, make = self.at_limits[-1 - index]
            made = make()
            made.what = what
            return made
        chance = random.Random(f"{self.seed}/{index}")
        if chance.random() < TRIALS:
            seed, size = (
                chance.choice((chance.choice(NUMBERS), chance.randrange(2_000))) + chance.choice((-1, 0, 0, 1))
                for _ in range(2)
            )
            return Made(f"trial {seed} {size}", trial=[str(seed), str(size)])
        files, report = chance.choice(self.packages)
        files = dict(files)
        if chance.random() < 0.25:
            files["r.txt"] = report
        name = "r.txt" if "r.txt" in files and chance.random() < 0.9 else chance.choice(sorted(files))
        whats = []
        for _ in range(chance.choice((1, 1, 1, 2, 3, 8))):
            if len(files[name]) > MOST_MADE:
                break
            what, change = chance.choice(CHANGES)
            files[name] = change(chance, files[name])
            whats.append(what)
        return Made(f"{name}: {', '.join(whats)}", files)


def span(chance, items):
    """Two places in the items, mostly near each other."""
    at = chance.randrange(len(items) + 1)
    return at, min(len(items), at + chance.choice((1, 1, 2, 5, 50)))


def cut(chance, data):
    return data[: chance.randrange(len(data) + 1)]


def flip(chance, data):
    if not data:
        return data
    at = chance.randrange(len(data))
    return data[:at] + bytes([chance.randrange(256)]) + data[at + 1 :]


def insert(chance, data):
    at = chance.randrange(len(data) + 1)
    return data[:at] + chance.choice(WORDS) * chance.choice((1, 1, 1, 2, 100)) + data[at:]


def parts(separator):
    """Changes of the parts that a separator makes: doubled, deleted, swapped, repeated."""

    def double(chance, data):
        items = data.split(separator)
        first, last = span(chance, items)
        return separator.join(items[:last] + items[first:])

    def delete(chance, data):
        items = data.split(separator)
        first, last = span(chance, items)
        return separator.join(items[:first] + items[last:])

    def swap(chance, data):
        items = data.split(separator)
        one, other = chance.randrange(len(items)), chance.randrange(len(items))
        items[one], items[other] = items[other], items[one]
        return separator.join(items)

    def repeat(chance, data):
        items = data.split(separator)
        at = chance.randrange(len(items))
        times = min(chance.choice((3, 50, 500)), MOST_MADE // (len(items[at]) + 1))
        return separator.join(items[:at] + [items[at]] * times + items[at:])

    return double, delete, swap, repeat


def number(chance, data):
    """One of the numbers in the data becomes one from the list, with a sign or a point at times."""
    places, at = [], 0
    while at < len(data):
        if data[at : at + 1].isdigit():
            end = at
            while data[end : end + 1].isdigit():
                end += 1
            places.append((at, end))
            at = end
        at += 1
    if not places:
        return data
    first, last = chance.choice(places)
    text = b"%d" % (chance.choice(NUMBERS) + chance.choice((-1, 0, 0, 1)))
    text = (
        chance.choice((b"", b"", b"", b"-", b"+", b"0", b"0" * 30))
        + text
        + chance.choice((b"", b"", b"", b".", b".0", b".5", b"e9"))
    )
    return data[:first] + text + data[last:]


def bytes_doubled(chance, data):
    first, last = span(chance, data)
    return data[:last] + data[first:]


def bytes_deleted(chance, data):
    first, last = span(chance, data)
    return data[:first] + data[last:]


def bytes_swapped(chance, data):
    if len(data) < 2:
        return data
    one, other = sorted((chance.randrange(len(data)), chance.randrange(len(data))))
    return data[:one] + data[other : other + 1] + data[one + 1 : other] + data[one : one + 1] + data[other + 1 :]


def line_ends(chance, data):
    return data.replace(b"\n", chance.choice((b"\r\n", b"\r", b"\n\n", b"", b" \n", b"\n ")))


def changes():
    yield from (
        ("cut", cut),
        ("a byte", flip),
        ("a word put in", insert),
        ("a number", number),
        ("a number", number),
        ("line ends", line_ends),
    )
    yield from (("bytes doubled", bytes_doubled), ("bytes deleted", bytes_deleted), ("bytes swapped", bytes_swapped))
    for separator, name in (
        (b"\n", "lines"),
        (b" ", "words"),
        (b",", "fields"),
        (b"*", "commands"),
        (b"X", "coordinates"),
    ):
        for what, change in zip(("doubled", "deleted", "swapped", "repeated"), parts(separator)):
            yield f"{name} {what}", change


CHANGES = tuple(changes())
