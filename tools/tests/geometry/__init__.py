"""Tests of the plane of whole numbers."""
