# Scales a row of pixels of four bytes from the place `from` on in steps of `step`, both in parts of 2^16 of a pixel: by the pixel at each place, or by a mix of the two around it.
.function nearest
.dest 4 d1
.source 4 s1
.param 4 from
.param 4 step
ldresnearl d1, s1, from, step

.function linear
.dest 4 d1
.source 4 s1
.param 4 from
.param 4 step
ldreslinl d1, s1, from, step
