"""Writes scripts: random commands on what there is (`commands`), long families of snapshots, jobs and page sources (`families`),
and shapes of families by their size (`shapes`)."""
