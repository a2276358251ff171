"""What the last line of a script changed of what a picture shows."""


class Before:
    """What there was before the last line, to say what that changed. Without it nothing is new."""

    def __init__(self, before, now):
        self.before = now if before is None else before
        self.now = now
        changed = {place for place, _ in self.before.items() ^ now.items()}
        # Of which VMOs the last line changed pages or the name, and whether it changed what pins or mappings show.
        self.koids = {place[1] for place in changed if place[0] in ("page", "vmo")}
        self.has_others = any(place[0] not in ("page", "vmo") for place in changed)
        self.zeroed = {}
        for place in self.before:
            if place[0] == "page" and place not in now:
                self.zeroed.setdefault(place[1], []).append(place[2])

    def is_new(self, *place):
        """Returns whether the last line changed what is at a place."""
        return self.before.get(place) != self.now.get(place)

    def gone(self):
        """Returns what the VMOs were called that the last line let go."""
        return [it for place, it in self.before.items() if place[0] == "vmo" and place not in self.now]

    def changed_pages(self, koid):
        """Returns the pages of a VMO that are zero since the last line."""
        return self.zeroed.get(koid, [])
