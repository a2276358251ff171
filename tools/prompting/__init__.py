"""The parts of `tools/shell`: the machine behind the prompt, what is completed, and the commands that begin with a dot."""
