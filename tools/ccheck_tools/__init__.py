"""Modules that the Python tools of ccheck share."""
