"""The rule of a life of docs/protocol.md: which frame is due from a server, and why one that it wrote may not come."""

from frames import FORWARD, INVOKE, MADE, NAMES, NEXT, OP, READY, REPLY, RETURN, SHUTDOWN, either, shown

# What a service that has a request in hand may write.
SERVING = (OP, RETURN, FORWARD)


class Turns:
    """One life of a server. Behind its end, behind what is no frame and behind a frame out of turn nothing is looked at."""

    def __init__(self, name):
        self.name, self.due, self.tag, self.over = name, (READY,), 0, False
        # The tag of the last INVOKE, whether its service waits for a REPLY, and what the server wrote behind a NEXT or an OP
        # before what it waits for came.
        self.invocation, self.calling, self.ahead = 0, False, []

    def wrote(self, kind, tag, found):
        """Takes a frame of the server, and says why it may not come, or nothing."""
        if self.over:
            return ""
        if not self.due:
            return self.wrote_ahead(kind, tag, found)
        if kind not in self.due or tag != self.tag or is_unmade(kind, found):
            self.over = True
            call = f": {found['does']}, which the monitor doesn't make" if is_unmade(kind, found) else ""
            return f"out of turn: {either(self.due)} with tag {self.tag} is due, and {NAMES[kind]} with tag {tag} came{call}"
        if kind == READY and found["name"] != self.name:
            self.over = True
            return f"out of turn: READY with the name {shown(self.name)} is due, and not with {shown(found['name'])}"
        if found.get("outcome") == "TPEXIT" and kind == RETURN:
            self.over = True
        self.calling = kind == OP
        self.due, self.tag = () if kind in (NEXT, OP) else (NEXT,), 0
        return ""

    def wrote_ahead(self, kind, tag, found):
        """Takes a frame for which nothing is due: it is looked at only if the REPLY or another INVOKE comes."""
        self.ahead.append((kind, tag, found))
        following = self.invocation if self.calling else (self.invocation + 1) % 2**32
        if len(self.ahead) > 1 or kind in SERVING and tag == following and not is_unmade(kind, found):
            return ""
        then = "the REPLY" if self.calling else "another INVOKE"
        return f"ahead of its turn, and out of turn where {then} comes: {either(SERVING)} with tag {following} is due then"

    def got(self, kind, tag):
        """Takes a frame of the monitor, and then what the server wrote ahead."""
        if kind == SHUTDOWN:
            self.over = True
        elif kind in (INVOKE, REPLY):
            self.due, self.tag, self.invocation, self.calling = SERVING, tag, tag, False
        while self.ahead and self.due and not self.over:
            self.wrote(*self.ahead.pop(0))


def is_unmade(kind, found):
    """Whether it is an OP that the monitor doesn't make."""
    return kind == OP and found["does"] not in MADE
