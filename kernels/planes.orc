# Parts pixels Y U Y V of four bytes into three planes, and joins them again.
.function unpack
.dest 2 y
.dest 1 u
.dest 1 v
.source 4 s1
.temp 2 uv
x2 splitwb uv, y, s1
splitwb v, u, uv

.function pack
.dest 4 d1
.source 2 y
.source 1 u
.source 1 v
.temp 2 uv
mergebw uv, u, v
x2 mergebw d1, y, uv
