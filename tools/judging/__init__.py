"""Judges replies: brings them to the machine's spelling, joins them with their script into transcripts, asks `check` or the model for
the verdict, and tells what stands behind one that is illegal."""
