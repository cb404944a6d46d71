#!/usr/bin/env python3
"""Holds the library's plain PBM against Netpbm's programs. sh tools/netpbm runs it with the paths of two programs, those
of pbm.c and of examples/scale.c.

The files that the library writes show their dots in Netpbm; the plain files that Netpbm writes are read by the library;
where the two read a file otherwise, each has its claim; sh tools/picture writes the file of its log's dots; and the
documents' plain pictures show what the examples draw. What Netpbm does with such files may be otherwise in another
version: that is noted and is no failure. The last line is 'N passed, M failed'.
"""
import functools
import glob
import re
import subprocess
import sys

from pictures import EF9366, FORMATS, Wrong, generated, lit, pictured, png_raster, raster, raw, signs

# The programs ---------------------------------------------------------------------------------------------------------


def run(words, given):
    done = subprocess.run(words, input=given, stdout=subprocess.PIPE, stderr=subprocess.PIPE)
    return done.returncode, done.stdout, done.stderr.decode(errors="replace").strip()


def netpbm(given, *words):
    """What a program of Netpbm makes of its input."""
    status, made, said = run(words, given)
    if status != 0:
        raise Wrong(f"{words[0]} ended with status {status}: {said}")
    return made


def version():
    said = run(["pnmtopng", "--version"], b"")[2]
    found = re.search(r"Netpbm (\d[\d.]*)", said)
    return found.group(1) if found else "of an unknown version"


def library(call, form, given):
    """The refusal number of the library's call and what it wrote."""
    status, made, said = run([DRIVER, call, str(form.number)], given)
    if status not in (0, 2, 9, 10, 11, 12):
        raise Wrong(f"gdp_{call}_pbm could not be run: {said}")
    return status, made


@functools.lru_cache(maxsize=None)
def written(form, picture):
    number, file = library("write", form, picture)
    if number != 0:
        raise Wrong(f"gdp_write_pbm refused the picture with {number}")
    return file


def reads(form, file, picture):
    """Whether the library reads the file as the picture; a sentence where it refuses it."""
    number, found = library("read", form, file)
    if number != 0:
        raise Wrong(f"gdp_read_pbm refused the file with {number}")
    return found == picture


# Judging --------------------------------------------------------------------------------------------------------------

passed = failed = 0


def judge(right, words, why=""):
    global passed, failed
    if right:
        passed += 1
        print(f"ok: {words}")
    else:
        failed += 1
        print(f"FAILED: {words}{': ' + why if why else ''}")


def tried(words, holds, *given):
    """One test: a function that answers whether it holds, or says what is wrong."""
    try:
        judge(holds(*given), words)
    except Wrong as why:
        judge(False, words, str(why))


def tried_on_each(words, holds, form, pictures):
    """One test over many pictures; it tells the first that fails."""

    def every():
        for number, picture in enumerate(pictures):
            try:
                right, why = holds(form, picture), "other dots"
            except Wrong as found:
                right, why = False, str(found)
            if not right:
                raise Wrong(f"picture {number}: {why}")
        return True

    tried(f"{len(pictures)} pictures, {form.name}: {words}", every)


# Our files in Netpbm --------------------------------------------------------------------------------------------------


def shows_in_png(form, picture):
    return png_raster(form, netpbm(written(form, picture), "pnmtopng")) == raster(form, picture)


def is_plain_there(form, picture):
    """Netpbm writes our file again as it writes its own."""
    return netpbm(written(form, picture), "pnmtoplainpnm") == plain(form, picture)


def example(name):
    """The dots of the P lines of the panel's answer."""
    with open(f"examples/{name}.out", encoding="ascii") as answer:
        return {(int(x), int(y)) for x, y in re.findall(r"^P\t(\d+)\t(\d+)$", answer.read(), re.MULTILINE)}


def example_shows(name):
    dots = example(name)
    png = netpbm(written(EF9366, pictured(EF9366, dots)), "pnmtopng")
    return len(dots) > 0 and lit(EF9366, png_raster(EF9366, png)) == dots


# Netpbm's files here --------------------------------------------------------------------------------------------------


@functools.lru_cache(maxsize=None)
def plain(form, picture):
    return netpbm(raw(form, picture), "pnmtoplainpnm")


def by_way_of_png(form, picture):
    return netpbm(netpbm(raw(form, picture), "pnmtopng"), "pngtopnm", "-plain")


def commented(form, picture):
    """A comment after P1, after the width, and after the height."""
    magic, size, dots = plain(form, picture).split(b"\n", 2)
    width, height = size.split()
    return b"%s # made by hand\n%s#width\n%s #and height: 1 0 1\n#\n%s" % (magic, width, height, dots)


def with_cr_lf(form, picture):
    return plain(form, picture).replace(b"\n", b"\r\n")


def commented_with_cr_lf(form, picture):
    return commented(form, picture).replace(b"\n", b"\r\n")


MADE = [
    ("what pngtopnm -plain writes", by_way_of_png),
    ("what pnmtoplainpnm writes", plain),
    ("that with comments after P1 and after the numbers", commented),
    ("that with CR LF at its line ends", with_cr_lf),
    ("that with comments and CR LF", commented_with_cr_lf),
]


# Files that the two could read otherwise ------------------------------------------------------------------------------

HEAD = b"P1\n512 256\n"


def headed(head):
    return lambda dots: head + dots


def parted(between):
    """Something between two dots on a line."""
    return lambda dots: HEAD + dots[:1000] + between + dots[1000:]


def followed(by):
    return lambda dots: HEAD + dots + by


# What, how it is made of the lines of dots, the library's refusal number, and whether Netpbm 11.1.0 reads it too.
CASES = [
    ("a comment between two dots", parted(b"# 01\n"), 0, True),
    ("a comment right after P1", headed(b"P1#\n512 256\n"), 0, True),
    ("a comment right after the height", headed(b"P1\n512 256#\n"), 0, True),
    ("a comment inside the digits of the width", headed(b"P1\n51#\n2 256\n"), 11, False),
    ("the size after a lone CR in a comment", headed(b"P1\n# a comment\r512 256\n"), 11, True),
    ("another size after a lone CR in a comment", headed(b"P1\n# a comment\r9 9\n512 256\n"), 0, False),
    ("VT after P1", headed(b"P1\v512 256\n"), 10, False),
    ("FF after P1", headed(b"P1\f512 256\n"), 10, False),
    ("VT after the width", headed(b"P1\n512\v256\n"), 10, True),
    ("FF after the height", headed(b"P1\n512 256\f"), 12, True),
    ("VT between two dots", parted(b"\v"), 12, False),
    ("FF between two dots", parted(b"\f"), 12, False),
    ("a letter after the width", headed(b"P1\n512x256\n"), 10, True),
    ("a letter after the height", headed(b"P1\n512 256x"), 12, True),
    ("no white space after P1", headed(b"P1512 256\n"), 10, True),
    ("white space before P1", headed(b"\nP1\n512 256\n"), 10, False),
    ("a sign before the width", headed(b"P1\n+512 256\n"), 10, False),
    ("zeros before the numbers", headed(b"P1\n0512 00000000000000000256\n"), 0, True),
    ("the width and 2 to the 32nd", headed(b"P1\n4294967808 256\n"), 11, False),
    ("a letter after the last dot", followed(b"x"), 0, True),
    ("an unended comment after the last dot", followed(b"\n# the end"), 0, True),
]


def answered_there(file, picture):
    status, png, _ = run(["pnmtopng"], file)
    if status != 0:
        return "refuses it"
    try:
        return "reads it" if png_raster(EF9366, png) == raster(EF9366, picture) else "reads other dots"
    except Wrong:
        return "reads another size"


def answered_here(file, number, picture):
    found, made = library("read", EF9366, file)
    if found != number:
        raise Wrong(f"the library answers {found}, not {number}")
    return made == (picture if number == 0 else b"")


def theirs(what, recorded, found):
    """A claim about Netpbm, as its version 11.1.0 does it."""
    if found == recorded:
        judge(True, f"{what}: Netpbm {recorded}")
    else:
        print(f"note: {what}: Netpbm 11.1.0 {recorded}, the one installed {found}. It is not counted.")


def otherwise(picture):
    dots = signs(EF9366, picture)
    for what, made, number, read_there in CASES:
        file = made(dots)
        here = "reads it" if number == 0 else f"refuses it with {number}"
        tried(f"{what}: the library {here}", answered_here, file, number, picture)
        theirs(what, "reads it" if read_there else "refuses it", answered_there(file, picture))
    found = "refuses it" if run(["pnmtoplainpnm"], followed(b"x")(dots))[0] else "reads it"
    theirs("a letter after the last dot, which pnmtoplainpnm looks at", "refuses it", found)


# The picture program --------------------------------------------------------------------------------------------------


def plays_to_the_file(name):
    with open(f"examples/{name}.log", "rb") as log:
        status, file, said = run(["sh", "tools/picture"], log.read())
    if status != 0:
        raise Wrong(f"sh tools/picture ended with status {status}: {said}")
    return file == written(EF9366, pictured(EF9366, example(name)))


# The documents' pictures ----------------------------------------------------------------------------------------------


def contents(name):
    try:
        with open(name, "rb") as file:
            return file.read()
    except OSError as why:
        raise Wrong(f"{name} could not be read: {why.strerror}") from why


def scale():
    """The picture that examples/scale.c draws, by the file that it keeps."""
    status, _, said = run([SCALE, f"{SCALE}.pbm"], b"")
    if status != 0:
        raise Wrong(f"it ended with status {status}: {said}")
    number, picture = library("read", EF9366, contents(f"{SCALE}.pbm"))
    if number != 0:
        raise Wrong(f"gdp_read_pbm refused its file with {number}")
    return picture


def documented(name):
    """The raster of one of docs/pictures, as viewers show plain PBM: a lit dot is black."""
    return png_raster(EF9366, contents(f"docs/pictures/{name}.png"))


def documents_show_the_example(name):
    return documented(name) == raster(EF9366, pictured(EF9366, example(name)))


def documents_show_the_scale():
    if documented("scale") != raster(EF9366, scale()):
        raise Wrong(f"other dots; if they are right, pnmtopng < {SCALE}.pbm > docs/pictures/scale.png")
    return True


def main():
    print(f"Netpbm {version()}")
    names = sorted(path[len("examples/") : -len(".out")] for path in glob.glob("examples/*.out"))
    judge(len(names) > 0, "there are examples")
    for name in names:
        tried(f"examples/{name}.out: pnmtopng shows the dots of its P lines", example_shows, name)
    for form in FORMATS:
        pictures = list(generated(form))
        tried_on_each("pnmtopng shows the dots of our file", shows_in_png, form, pictures)
        tried_on_each("our file is plain PBM to pnmtoplainpnm", is_plain_there, form, pictures)
        for words, made in MADE:
            tried_on_each(f"the library reads {words}", lambda f, p: reads(f, made(f, p), p), form, pictures)
    otherwise(list(generated(EF9366))[-1])
    for name in names:
        tried(f"examples/{name}.log: sh tools/picture writes the file of its dots", plays_to_the_file, name)
    tried("docs/pictures/night.png shows the dots of examples/night.out", documents_show_the_example, "night")
    tried("docs/pictures/scale.png shows what examples/scale.c draws", documents_show_the_scale)
    print(f"{passed} passed, {failed} failed")
    sys.exit(failed > 0)


if len(sys.argv) != 3:
    sys.exit("tests/netpbm/compare.py: it takes the programs of pbm.c and scale.c, and sh tools/netpbm gives them.")
DRIVER, SCALE = sys.argv[1:]
main()
