"""The words whose growths are refused, with their input."""
# Two layers, with little room, so that quotas and limits are met. It is short, so that a run has few growths.
KEPT = """{"source":7,"keptLimit":9,"cutLimit":4,"blobBytes":700,"quota":500,"policy":"lfu",
"grids":[{"id":"tiny","corner":["0","16"],"matrices":[
{"id":"0","span":"8","tile":[2,2],"size":[1,1]},
{"id":"1","span":"4","tile":[2,2],"size":[2,2]},
{"id":"2","span":"2","tile":[2,2],"size":[4,4]}]}],
"layers":[{"id":"demo","grids":["tiny"],"styles":[{"id":"grey","breaks":[]}],"meta":[1,1],"quota":46},
{"id":"sea","grids":["tiny"],"styles":[{"id":"grey","breaks":[]},{"id":"two","breaks":[[0,0,0,255],[128,255,255,255]]}],
"dimensions":[{"id":"time","values":["a","b"],"default":"a"},{"id":"level","values":["0","10"]}],"meta":[2,2],"gutter":1}]}"""

# The same layers for a server, with more room, and one whose tiles have 196,623 bytes.
SERVED = KEPT.replace('"keptLimit":9,"cutLimit":4,"blobBytes":700,"quota":500', '"keptLimit":64,"cutLimit":40,"blobBytes":4000000,"quota":300000').replace(
    '"quota":46}', '"quota":460}').replace(
    '"size":[4,4]}]}]', '"size":[4,4]}]},{"id":"large","corner":["0","0"],"matrices":[{"id":"0","span":"1","tile":[256,256],"size":[2,2]}]}]').replace(
    '"gutter":1}]', '"gutter":1},{"id":"large","grids":["large"],"styles":[{"id":"grey","breaks":[]}],"meta":[1,1]}]')

DOCUMENT = b"<Capabilities>\xc3\xa9</Capabilities>\n"
PATH = b"/rest/wmts/demo/grey/tiny/2/%d/%d.ppm"
SEA = b"/rest/wmts/sea/two/a/10/tiny/2/1/1.ppm"
QUERY = (b"/wmts?service=WMTS&request=GetTile&version=1.0.0&layer=sea&style=two&format=image/x-portable-pixmap&time=b&level=%310"
         b"&TileMatrixSet=tiny&TileMatrix=1&TileRow=0&TileCol=1")
COVER = b'{"layer":"demo","grid":"tiny","zoomStart":0,"zoomStop":2}'
BOXED = b'{"layer":"sea","grid":"tiny","zoomStart":0,"zoomStop":1,"bounds":["0","0","16","16"],"style":"two","dimensions":{"time":"b"}}'
LINES = b"".join(b"%s\n" % it for it in (
    b"0 GET " + PATH % (0, 0), b"0 GET " + PATH % (0, 0), b"1 ASK " + PATH % (1, 0), b"2 GET " + PATH % (1, 0), b"1 STEP", b"2 STEP",
    b"1 STEP", b"2 STEP", b"0 FORCE " + PATH % (0, 0), b"0 STEP", b"0 STEP", b"3 FORCE " + PATH % (2, 1), b"# a comment",
    b"0 TRUNCATE " + COVER, b"3 STEP", b"3 STEP", b"0 TRUNCATE {", b"0 GET " + QUERY, b"0 GET " + SEA, b"0 EXPIRE", b"0 EXPIRE",
    b"0 GET /usage", b"0 GET /wmts?service=WMTS&request=GetCapabilities", b"0 GET /wmts?service=%26", b"0 GET /none",
    b"0 TRUNCATE " + BOXED, b"4 ASK " + PATH % (3, 3), b"5 ASK " + PATH % (3, 3), b"0 GET " + SEA))
MESSAGES = b"".join((
    b"GET %s HTTP/1.1\r\nHost: here\r\n\r\n" % (PATH % (0, 0)), b"GET %s HTTP/1.1\r\n\r\n" % (PATH % (0, 0)),
    b"POST /truncate HTTP/1.1\r\nContent-Length: %d\r\n\r\n%s" % (len(COVER), COVER), b"GET %s HTTP/1.1\r\n\r\n" % (PATH % (0, 0)),
    b"GET %s HTTP/1.1\r\n\r\n" % QUERY, b"POST /expire HTTP/1.1\r\n\r\n", b"GET /usage HTTP/1.1\r\n\r\n",
    b"POST /truncate HTTP/1.1\r\nContent-Length: 2\r\n\r\n{}", b"GET /wmts?service=x HTTP/1.1\r\n\r\n", b"GET /none HTTP/1.1\r\n\r\n",
    b"POST /truncate HTTP/1.1\r\nContent-Length: 9000\r\n\r\n" + COVER.ljust(9000), b"GET %s HTTP/1.1\r\nConnection: close\r\n\r\n" % SEA))
BAD = b"GET %s HTTP/1.1\r\n\r\nno message\r\n" % SEA
SEED = b'{"layer":"demo","grid":"tiny","zoomStart":0,"zoomStop":2,"type":"seed"}'


class Case:
    """A word with its input. Its runs begin with a cache that has some tiles and truncations, or none where `kept` isn't set."""

    def __init__(self, name, *words, data=b"", kept=True):
        self.name, self.words, self.data, self.kept = name, words, data, kept


CASES = [
    Case("schedule", "schedule", data=LINES, kept=False), Case("schedule --kept", "schedule", "--kept", data=LINES),
    Case("replay", "replay", data=MESSAGES, kept=False), Case("replay --kept", "replay", "--kept", data=MESSAGES),
    Case("replay, bad bytes", "replay", data=BAD, kept=False), Case("make", "make"), Case("make, no file", "make", kept=False),
    Case("truncate", "truncate", data=BOXED), Case("truncate, no cover", "truncate", data=b'{"layer":"demo"}'),
    Case("expire", "expire"), Case("usage", "usage"), Case("job, seed", "job", data=SEED),
    Case("job, reseed", "job", data=SEED.replace(b"seed", b"reseed")), Case("job, truncate", "job", data=SEED.replace(b"seed", b"truncate")),
    Case("job, no job", "job", data=b"["), Case("no command", "schedule", "--keep", kept=False), Case("--help", "--help", kept=False),
    Case("drill", "drill", "7", kept=False),
]
