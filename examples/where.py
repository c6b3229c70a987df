#!/usr/bin/env python3
"""Names the places in a catalogue that a refusal of it can mean, or its members that nobody knows.

    python3 examples/where.py CATALOGUE 'catalogue <kind> <field> <index>'
    python3 examples/where.py CATALOGUE

The line is the one that tile_server wrote to standard error. It tells the place of an object in its list and not which grid or
layer the list is of; this script lists every path that fits, as $.layers[2].styles[0].breaks, with what stands there, and leaves
out those where that mistake can't be: a member that is there isn't missing. Without a line it lists the members that the program ignores
since it has none of that name, and ends with 1 if there are any: most are misspelt.
"""
import json
import sys

# the field as the line spells it: what has the member, and the member's name
FIELDS = {
    "Source": ("catalogue", "source"), "KeptLimit": ("catalogue", "keptLimit"), "CutLimit": ("catalogue", "cutLimit"),
    "BlobBytes": ("catalogue", "blobBytes"), "Quota": ("catalogue", "quota"), "Policy": ("catalogue", "policy"),
    "Grids": ("catalogue", "grids"), "Layers": ("catalogue", "layers"),
    "GridId": ("grid", "id"), "Meters": ("grid", "metersPerUnit"), "Corner": ("grid", "corner"), "Matrices": ("grid", "matrices"),
    "MatrixId": ("matrix", "id"), "MatrixCorner": ("matrix", "corner"), "Span": ("matrix", "span"), "Scale": ("matrix", "scale"),
    "Tile": ("matrix", "tile"), "Size": ("matrix", "size"),
    "LayerId": ("layer", "id"), "LayerGrids": ("layer", "grids"), "Styles": ("layer", "styles"),
    "Dimensions": ("layer", "dimensions"), "Meta": ("layer", "meta"), "Gutter": ("layer", "gutter"), "Cell": ("layer", "cell"),
    "LayerQuota": ("layer", "quota"), "Ages": ("layer", "ages"),
    "StyleId": ("style", "id"), "Breaks": ("style", "breaks"),
    "DimensionId": ("dimension", "id"), "Values": ("dimension", "values"), "Default": ("dimension", "default"),
}
# the list that each kind of object stands in, and what has that list
LISTS = {"grid": ("catalogue", "grids"), "layer": ("catalogue", "layers"), "matrix": ("grid", "matrices"),
         "style": ("layer", "styles"), "dimension": ("layer", "dimensions")}
PARAMETERS = {"service", "request", "version", "layer", "style", "format", "tilematrixset", "tilematrix", "tilerow", "tilecol"}


class Place:
    """An object of the catalogue: its path, its place in its list, the object that it stands in, and those before it."""

    def __init__(self, value, path="$", index=0, parent=None, before=()):
        self.value, self.path, self.index, self.parent, self.before = value, path, index, parent, before

    def entries(self, member):
        """The objects of one of its lists."""
        found = self.value.get(member)
        found = found if isinstance(found, list) else []
        return [Place(entry, f"{self.path}.{member}[{i}]", i, self, found[:i])
                for i, entry in enumerate(found) if isinstance(entry, dict)]


def places_of(kind, whole):
    """All objects of a kind."""
    if kind == "catalogue":
        return [whole]
    parent, member = LISTS[kind]
    return [entry for place in places_of(parent, whole) for entry in place.entries(member)]


def is_repeated(place, field, member):
    """Whether a name can be the second of its kind."""
    value = place.value.get(member)
    if field in ("Values", "LayerGrids"):
        return isinstance(value, list) and len({json.dumps(entry) for entry in value}) < len(value)
    earlier = [entry.get(member) for entry in place.before if isinstance(entry, dict)]
    if field == "DimensionId":
        names = {str(name).lower() for name in earlier} | PARAMETERS
        return str(value).lower() in names
    return value in earlier


def can_be(place, kind, field, member):
    """Whether this mistake can be at this place."""
    there = member in place.value
    if kind == "missing":
        return not there and not (field == "Scale" and "span" in place.value)
    if kind == "duplicate":
        return there and is_repeated(place, field, member)
    # a matrix has its grid's corner, and a layer factors, where it gives none
    return there or (kind == "limit" and field in ("MatrixCorner", "Meta"))


def described(place, field, member):
    """The path of a member, with what stands there."""
    path, value = f"{place.path}.{member}", place.value.get(member)
    if field == "MatrixCorner" and member not in place.value:
        path, value = f"{place.parent.path}.corner, which {place.path} takes", place.parent.value.get("corner")
    text = "absent" if value is None and member not in place.value and field != "MatrixCorner" else json.dumps(value)
    names = [json.dumps(owner.value["id"]) for owner in (place.parent, place) if owner and "id" in owner.value]
    return f"{path}  {('of ' + ' '.join(names) + ': ') if names else ''}{text if len(text) <= 80 else text[:77] + '...'}"


def unknown_members(whole):
    """The paths of the members that no field is of."""
    known = {}
    for owner, member in FIELDS.values():
        known.setdefault(owner, set()).add(member)
    return [f"{place.path}.{member}" for owner in known for place in places_of(owner, whole) for member in place.value if member not in known[owner]]


def explain_text(path):
    """Says what is wrong with a file that is no JSON object."""
    try:
        with open(path, encoding="utf-8") as file:
            value = json.load(file)
    except ValueError as error:
        return str(error)
    return "the file is JSON, but its value is no object" if not isinstance(value, dict) else \
        "Python reads this file as a JSON object: look for NaN, Infinity, a lone surrogate or very deep lists"


def object_of(path):
    """The catalogue's one object."""
    with open(path, encoding="utf-8") as file:
        value = json.load(file)
    if not isinstance(value, dict):
        sys.exit("the file is JSON, but its value is no object")
    return Place(value)


def main(words):
    if len(words) == 1:
        found = unknown_members(object_of(words[0]))
        for path in found:
            print(f"{path}  is ignored: there is no such member")
        sys.exit(1 if found else 0)
    if len(words) != 2:
        sys.exit(__doc__)
    told = words[1].split()
    if told[:3] == ["catalogue", "not", "json"]:
        print(explain_text(words[0]))
        return
    if len(told) != 4 or told[0] != "catalogue" or told[2] not in FIELDS or not told[3].isdigit():
        sys.exit("the line is not of the form: catalogue <kind> <field> <index>")
    whole = object_of(words[0])
    _, kind, field, index = told
    owner, member = FIELDS[field]
    found = [place for place in places_of(owner, whole) if place.index == int(index) and can_be(place, kind, field, member)]
    for place in found:
        print(described(place, field, member))
    if field == "Meta" and kind == "limit" and found:
        print("the factors, the gutter and the tile sizes of its grids count together: (mx*w + 2*gutter) * (my*h + 2*gutter)")
    if not found:
        sys.exit("no place of this catalogue fits the line: is it the catalogue that was refused?")


if __name__ == "__main__":
    main(sys.argv[1:])
