"""Layouts of a Mondgurt node: as files, as text and as pictures."""

# That of include/mondgurt.h, with which the tools are handed out.
VERSION = 9
