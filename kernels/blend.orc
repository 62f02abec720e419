# Blends an image of 8-bit samples over another by one opacity from 0 to 255, row by row.
.function blend
.flags 2d
.dest 1 d1
.source 1 s1
.param 1 opacity
.temp 1 rest
.temp 2 over
.temp 2 under
subb rest, 255, opacity
mulubw over, s1, opacity
mulubw under, d1, rest
addw over, over, under
div255w over, over
convwb d1, over
