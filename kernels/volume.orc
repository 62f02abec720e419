# Scales 16-bit samples in place by a volume of 11 fractional bits.
.function volume
.dest 2 d1 gint16
.param 2 p1
.temp 4 t1
mulswl t1, d1, p1
shrsl t1, t1, 11
convlw d1, t1
