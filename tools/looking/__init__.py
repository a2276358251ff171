"""What `tools/look` shows of a script: texts, states, pictures and a page."""
