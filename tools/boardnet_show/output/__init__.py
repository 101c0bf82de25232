"""Renders an answer: lines, JSON, JUnit, KLayout's markers, the page, the picture; the one place with English for
people."""
