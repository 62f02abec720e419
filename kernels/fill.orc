# Copies an image of pixels of four bytes, and fills one with a pixel, row by row.
.function copy
.flags 2d
.dest 4 d1
.source 4 s1
copyl d1, s1

.function fill
.flags 2d
.dest 4 d1
.param 4 pixel
copyl d1, pixel
