-- Counts the answers of which each byte of the body is that of the file that TILE names, and the others.
local file = io.open(os.getenv("TILE"), "rb")
local expected = file:read("*a")
file:close()

local threads = {}

function setup(thread)
  table.insert(threads, thread)
end

right, wrong = 0, 0

function response(status, headers, body)
  if status == 200 and body == expected then
    right = right + 1
  else
    wrong = wrong + 1
  end
end

function done(summary, latency, requests)
  local all_right, all_wrong = 0, 0
  for _, thread in ipairs(threads) do
    all_right, all_wrong = all_right + thread:get("right"), all_wrong + thread:get("wrong")
  end
  local errors = summary.errors
  io.write(string.format("right %d wrong %d errors %d\n", all_right, all_wrong, errors.connect + errors.read + errors.write + errors.timeout))
end
