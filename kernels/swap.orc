# Turns the bytes of 16-bit and of 32-bit samples about.
.function swap16
.dest 2 d1
.source 2 s1
swapw d1, s1

.function swap32
.dest 4 d1
.source 4 s1
swapl d1, s1
