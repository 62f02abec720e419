# Multiplies the colours of pixels of four bytes by their first byte, the opacity, row by row.
.function premultiply
.flags 2d
.dest 4 d1
.source 4 s1
.temp 4 pixel
.temp 2 half
.temp 1 opacity
.temp 4 all
.temp 8 wide
.temp 8 by
.const 4 first 0x000000ff
loadl pixel, s1
convlw half, pixel
convwb opacity, half
splatbl all, opacity
orl all, all, first
x4 convubw wide, pixel
x4 convubw by, all
x4 mullw wide, wide, by
x4 div255w wide, wide
x4 convwb d1, wide
