"""Bytes to typed records and back: Gerber, IPC-D-356A, the report, the manifest; it judges nothing."""
