# Adds two rows of 16-bit samples, clamped, as mixers of audio do.
.function clamp16
.dest 2 d1 gint16
.source 2 s1 gint16
.source 2 s2 gint16
addssw d1, s1, s2
