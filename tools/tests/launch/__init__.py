"""Tests of the launcher, what is installed and packaged, and the plugin."""
