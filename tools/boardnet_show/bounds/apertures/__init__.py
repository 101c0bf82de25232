"""Apertures and macros as pieces within their shape and pieces round it."""
