"""Tests of what is made where it is asked for."""
