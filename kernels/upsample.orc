# Packs rows of a planar picture as opaque pixels of opacity, luma and both chromas; each chroma sample serves two pixels. And doubles a row of samples, with the average of its neighbours between two samples.
.function ayuv
.dest 4 d1 guint8
.source 1 y guint8
.source 1 u guint8
.source 1 v guint8
.const 1 opaque 255
.temp 1 t1
.temp 1 t2
.temp 2 t3
.temp 2 t4
loadupdb t1, u
loadupdb t2, v
mergebw t3, t1, t2
mergebw t4, opaque, y
mergewl d1, t4, t3

.function smooth
.dest 1 d1 guint8
.source 1 s1 guint8
loadupib d1, s1
