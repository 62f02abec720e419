# Brightens an image of 8-bit samples by an amount, clamped at 255, row by row.
.function brighten
.flags 2d
.dest 1 d1
.source 1 s1
.param 1 p1
addusb d1, s1, p1
