"""Which entries of a stream count. The same entry may be in a stream more than once, and one that is sent again may come behind
later ones: so each writer numbers its entries, and whoever reads takes the next number and no other. Every reader of a stream
finds the same entries to count, since that depends on nothing but the entries before.
"""
# What is no offset: they are counted from 0.
NONE = -1


class Sessions:
    """Of the stream of a hub: entries of the newest session of each railway, by their numbers. Number 0 begins a session: what comes
    of the sessions before it does not count any more."""

    def __init__(self):
        self.begun, self.newest, self.last = set(), {}, {}

    def counts(self, head):
        match head:
            case {"railway": str(railway), "session": str(session), "number": 0} if session not in self.begun:
                self.begun.add(session)
                self.newest[railway], self.last[railway] = session, 0
                return True
            case {"railway": str(railway), "session": str(session), "number": int(number)}:
                if self.newest.get(railway) == session and number == self.last[railway] + 1:
                    self.last[railway] = number
                    return True
        return False


class Replies:
    """Of the replies to a railway: those to the entries of each hub's stream, one behind the other. Each has the offset of its entry
    and that of the railway's entry before it. Several bridges may put them in: the first of each counts."""

    def __init__(self):
        self.last = {}

    def counts(self, head):
        match head:
            case {"hub": int(hub), "offset": int(offset), "after": int(after)} if after == self.last.get(hub, NONE):
                self.last[hub] = offset
                return True
        return False
