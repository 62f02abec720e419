# Makes opaque pixels of four bytes from 8-bit samples of gray; the first byte is the opacity.
.function gray
.flags 2d
.dest 4 d1
.source 1 s1
.temp 4 t1
.const 4 opaque 0x000000ff
splatbl t1, s1
orl d1, t1, opaque
