# Halves the height of an image of 8-bit samples: each sample is the mean of the two above one another.
.function average
.flags 2d
.dest 1 d1
.source 1 s1
.source 1 s2
avgub d1, s1, s2
