"""What a tile shows under the number of a render, and the metatiles of a catalogue."""
from functools import lru_cache


def matrix_at(catalogue, key):
    return catalogue.grids[key.grid].matrices[key.z]


def block_of(catalogue, address):
    """The metatile of a tile: an address whose row and column are those of the metatile."""
    layer = catalogue.layers[address.layer]
    return address._replace(row=address.row // layer.meta_y, col=address.col // layer.meta_x)


def tiles_of(catalogue, block):
    """The rows and the columns of the tiles of a metatile; at the edge of a matrix there are fewer."""
    layer, matrix = catalogue.layers[block.layer], matrix_at(catalogue, block)
    rows = range(block.row * layer.meta_y, min((block.row + 1) * layer.meta_y, matrix.rows))
    cols = range(block.col * layer.meta_x, min((block.col + 1) * layer.meta_x, matrix.cols))
    return rows, cols


def head_of(matrix):
    return b"P6\n%d %d\n255\n" % (matrix.width, matrix.height)


def tile_length(matrix):
    return len(head_of(matrix)) + 3 * matrix.width * matrix.height


def blob_length(catalogue, block):
    rows, cols = tiles_of(catalogue, block)
    return len(rows) * len(cols) * tile_length(matrix_at(catalogue, block))


def part_of_blob(catalogue, blob, address):
    """The bytes of a tile within the blob of its metatile: the tiles row by row."""
    rows, cols = tiles_of(catalogue, block_of(catalogue, address))
    length = tile_length(matrix_at(catalogue, address))
    start = ((address.row - rows.start) * len(cols) + address.col - cols.start) * length
    return blob[start:start + length]


def colour(style, value):
    """The colour of a value: grey where the style has no breaks, else that of the last break at or below it."""
    if not style.breaks:
        return bytes([value] * 3)
    return bytes([it for it in style.breaks if it[0] <= value][-1][1:])


def ground(span, cell, pixel):
    return (2 * pixel + 1) * span.numerator // (2 * span.denominator * cell)


@lru_cache(maxsize=1 << 16)
def shape_of(catalogue_id, address):
    """The values of a tile's pixels under the number 0, row by row, not yet modulo 256."""
    catalogue = CATALOGUES[catalogue_id]
    layer, matrix = catalogue.layers[address.layer], matrix_at(catalogue, address)
    chosen = sum((at + 1) * value for at, value in enumerate(address.values))
    base = catalogue.source + 31 * address.layer + 131 * chosen
    across = [17 * ground(matrix.span, layer.cell, address.col * matrix.width + at) for at in range(matrix.width)]
    down = [13 * ground(matrix.span, layer.cell, address.row * matrix.height + at) for at in range(matrix.height)]
    return [base + y + x for y in down for x in across]


CATALOGUES = {}


def tile_text(catalogue, number, address):
    """The bytes of a tile as a render of this number shows it."""
    CATALOGUES[id(catalogue)] = catalogue
    style = catalogue.layers[address.layer].styles[address.style]
    values = shape_of(id(catalogue), address)
    return head_of(matrix_at(catalogue, address)) + b"".join(colour(style, (7 * number + it) % 256) for it in values)
