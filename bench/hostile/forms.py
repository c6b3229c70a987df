"""The forms of answers, where what they tell is open."""
import re

# A head: its status, the length of its body, of a tile whether it was kept and under which number, and whether the connection ends.
HEAD = re.compile(rb"HTTP/1\.1 ([0-9]{3}) [A-Za-z ]+\r\n(?:Content-Type: [a-z/-]+\r\n)?Content-Length: (0|[1-9][0-9]*)\r\n"
                  rb"(?:geowebcache-cache-result: (HIT|MISS)\r\ntile-render: ([1-9][0-9]*)\r\n)?(Connection: close\r\n)?\r\n")
# The number of a truncation.
CUT = re.compile(rb'\{"cut":([1-9][0-9]*)\}\n')
# What an expiry did.
DROPPED = re.compile(rb'\{"within":true\}\n|\{"dropped":\{"layer":"[^"]+","style":"[^"]+","dimensions":\[[^]]*\],"grid":"[^"]+",'
                     rb'"z":[0-9]+,"row":[0-9]+,"col":[0-9]+\}\}\n')
# The number of a job.
SUBMITTED = re.compile(rb'\{"job":([1-9][0-9]*)\}\n')
# How far a job is.
PROGRESS = re.compile(rb'\{"job":([0-9]+),"places":([0-9]+),"claimed":([0-9]+),"done":([0-9]+),"failed":([0-9]+),"cancelled":(true|false)\}\n')
