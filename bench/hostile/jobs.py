"""Jobs: how one is read, which places it has, and what its run leaves of a cabinet."""
from collections import namedtuple
from itertools import islice, product

import covers
from catalogues import Address
from covers import Fault, range_of, required
from json_text import object_of

Job = namedtuple("Job", "kind cover threads")
KINDS, MOST_PLACES = ("seed", "reseed", "truncate"), 10_000_000


def threads_of(value):
    if not isinstance(value, int) or isinstance(value, bool):
        raise Fault("bad", "Threads")
    if not 1 <= value <= 8:
        raise Fault("limit", "Threads")
    return value


def read(catalogue, data):
    """The job of a text; Fault at the first member that has one, those of the cover first."""
    cover, told = covers.read(catalogue, data), object_of(data)
    kind = required(told, "type", "Kind")
    if not isinstance(kind, str) or kind not in KINDS:
        raise Fault("bad", "Kind")
    job = Job(kind, cover, threads_of(told.get("threads", 1)))
    if count(catalogue, job) > MOST_PLACES:
        raise Fault("limit", "ZoomStop")
    return job


def in_blocks(tiles, factor):
    """The rows or the columns of metatiles that have one of these tiles."""
    return range(tiles.start // factor, (tiles.stop - 1) // factor + 1) if tiles else range(0)


def parts_of(catalogue, cover):
    """The rows and the columns of metatiles by the number of the matrix."""
    layer = catalogue.layers[cover.layer]
    for z in range(cover.start, cover.stop + 1):
        matrix = catalogue.grids[cover.grid].matrices[z]
        rows, cols = (range(matrix.rows), range(matrix.cols)) if cover.box is None else range_of(matrix, cover.box)
        if rows and cols:
            yield z, in_blocks(rows, layer.meta_y), in_blocks(cols, layer.meta_x)


def themes_of(catalogue, cover):
    """The styles and values, the last dimension fastest."""
    layer = catalogue.layers[cover.layer]
    styles = range(len(layer.styles)) if cover.style is None else [cover.style]
    counts = [len(it.values) for it in layer.dimensions] + [1] * (4 - len(layer.dimensions))
    return list(product(styles, *(range(most) if it is None else [it] for it, most in zip(cover.values, counts))))


def count(catalogue, job):
    if job.kind == "truncate":
        return 1
    return len(themes_of(catalogue, job.cover)) * sum(len(rows) * len(cols) for _, rows, cols in parts_of(catalogue, job.cover))


def places(catalogue, job):
    """The metatiles of a seed or a reseed, in order."""
    for style, *values in themes_of(catalogue, job.cover):
        for z, rows, cols in parts_of(catalogue, job.cover):
            for row, col in product(rows, cols):
                yield Address(job.cover.layer, style, tuple(values), job.cover.grid, z, row, col)


def first_tile(catalogue, block):
    layer = catalogue.layers[block.layer]
    return block._replace(row=block.row * layer.meta_y, col=block.col * layer.meta_x)


def work_on(cabinet, job, block):
    """Works on a place. The number of its render, or None where there is none."""
    tile = first_tile(cabinet.catalogue, block)
    found, number = cabinet.ask(tile) if job.kind == "seed" else cabinet.force(tile)
    if found != "ticket":
        return None
    cabinet.finish(number)
    return number


def run(cabinet, job, numbers=None, most=None):
    """Runs the places one after the other, or only so many of the first ones. How many are done, and how many failed. `numbers` gets the number
    of each place that is rendered."""
    if job.kind == "truncate":
        return (0, 1) if cabinet.cut(job.cover) is None else (1, 0)
    done = 0
    for block in islice(places(cabinet.catalogue, job), most):
        number = work_on(cabinet, job, block)
        if number is not None and numbers is not None:
            numbers[block] = number
        done += 1
    return done, 0


def told(job, places_done, places_failed):
    """The line that the word writes."""
    return b"job %s places %d done %d failed %d\n" % (job.kind.encode(), places_done + places_failed, places_done, places_failed)
