# Makes 8-bit luma from three planes of colours by weights in 256ths, rounded.
.function luma
.flags 2d
.dest 1 d1
.source 1 r
.source 1 g
.source 1 b
.temp 2 t1
.temp 2 t2
mulubw t1, r, 77
mulubw t2, g, 150
addw t1, t1, t2
mulubw t2, b, 29
addw t1, t1, t2
addw t1, t1, 128
convhwb d1, t1
