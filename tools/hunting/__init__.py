"""Hunts for a script whose replies by a kernel are illegal: starts the kernel, makes up lines from its replies, and shrinks what it
finds."""
