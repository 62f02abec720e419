# A text in which no line has words: its image has no function.

# Spaces, tabs and commas part words, and are none themselves:
 	,,
