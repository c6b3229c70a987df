-- Asks for the 512 large tiles one after the other, each thread from a place of its own.
local at = 0

function setup(thread)
  thread:set("first", at)
  at = at + 128
end

function init()
  at = first
end

function request()
  at = (at + 1) % 512
  return wrk.format("GET", string.format("/rest/wmts/large/grey/wide/0/%d/%d.ppm", math.floor(at / 32), at % 32))
end
