# Adds up the absolute differences of two blocks of 8-bit samples, row by row.
.function difference
.flags 2d
.accumulator 4 a1
.source 1 s1
.source 1 s2
accsadubl a1, s1, s2
