# Converts samples between 16 and 32 bits: the narrow one is rounded, clamped where that would pass the greatest.
.function widen
.dest 4 d1 gint32
.source 2 s1 gint16
.temp 4 t1
convswl t1, s1
shll d1, t1, 16

.function narrow
.dest 2 d1 gint16
.source 4 s1 gint32
.temp 4 t1
addssl t1, s1, 0x8000
shrsl t1, t1, 16
convssslw d1, t1
