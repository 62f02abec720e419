# Mixes two stereo signals of 16-bit samples, clamped, two samples at once; and adds up numbers of four bytes, modulo 2^32.
.function mix
.source 4 s1
.source 4 s2
.dest 4 d1
x2 addssw d1, s1, s2

.function total
.accumulator 4 a1
.source 4 s1
accl a1, s1
