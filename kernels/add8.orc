# Adds two rows of bytes, modulo 256.
.function add8
.dest 1 d1
.source 1 s1
.source 1 s2
addb d1, s1, s2
