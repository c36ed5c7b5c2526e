"""The limits and the scales of a play; docs/specification/play-format.md has the rules that they stand in."""

UNIT = 4096  # of a coordinate: this many make one unit of length
WHOLE = 65536  # of a scale or an entry of a matrix: this is 1
TURN = 3600  # of an angle, which is counted in tenths of a degree; also the greatest angle

LAYER = 16  # of a depth: so much nearer is each further child of a layer

COORDINATE = 1073741823
ENTRY = 1048576
RANGE = 2147483647

BYTES = 16777216
LINES = 262144
LIVE_LINES = 536870911
LINE_BYTES = 1024
TRIANGLES = 65536
GEODE_TRIANGLES = 4096

NODES = 4096  # besides the scene
IDENTIFIER = 65535
STATE = 65535
CHILDREN = 256
CHAIN = 32
UNFOLDED = 131072
RANGES = 257
TIMES = 256

SIDE = 1024
FOCAL = 65535
CHANNELS = 4
