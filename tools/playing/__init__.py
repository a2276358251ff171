"""The parts of `tools/play`: what a script's page is told, the processes that find it, and the server of the page."""
