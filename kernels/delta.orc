# Adds a signed difference of 16 bits to each 8-bit sample, as decoders of video do, clamped.
.function delta
.flags 2d
.dest 1 d1
.source 2 s1 gint16
.temp 2 t1
convubw t1, d1
addssw t1, t1, s1
convsuswb d1, t1
