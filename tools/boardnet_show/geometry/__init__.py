"""The plane of whole numbers: segments, arcs, boxes, shapes and what they touch; it knows no file."""
