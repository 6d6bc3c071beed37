"""Which requests wait at the queues, as the script and the frames of the servers show it.

A client makes its next call as soon as the one before is over: a tpcall and a tpgetrply when they are answered, and others at
once. So between two frames it is known what each client waits for, but not when a request came to a queue, nor which of several
queues it went to, nor a call that is refused without a frame, as for a full queue, nor whether a tpgetrply with TPNOBLOCK found a
reply. The board is followed by the changes that servers were told are done, so a call that came at the moment of one may be taken
for refused. Of requests with the same data it is not known which one a server got.
"""

from typing import NamedTuple

from configuration import NAME, entries_of, names_of, texts_of


class Request(NamedTuple):
    """A request of a client or of a server's service, or of nobody known where no call of the script has its data."""

    client: str
    call: int
    # The service that the client called, and the one whose server has it or gets it.
    called: str
    service: str
    data: tuple
    priority: int
    # When its client may have made the call at the earliest, and since when it may wait where it is.
    begun: float
    since: float
    # Who forwarded it, or the empty text, and how many others it may be in place of.
    by: str
    others: int
    # The server whose service made the call, if no client did.
    server: str = ""
    # The queues of its service as it was sent, at one of which it waits.
    queues: tuple = ()
    # Of a client's its number among the client's requests, and whether the client waits for the answer in that call.
    number: int = 0
    is_awaited: bool = False


# How many rows the board has at most, and how many replies a client may have open.
MOST_ROWS, MOST_OPEN = 256, 50


class Services:
    """What the configuration says of the services, and the rows that stand: each service and queue with its routine."""

    def __init__(self, document):
        self.all = dict(zip(names_of(entries_of(document, "service")), entries_of(document, "service")))
        self.servers, self.queue_of, self.rows = {}, {}, {}
        for entry in entries_of(document, "server"):
            name, queue = entry.get("name").data, entry.get("queue").data
            self.servers.setdefault(queue, []).append(name)
            self.queue_of[name] = queue
        for name, entry in self.all.items():
            routine = entry.get("routine")
            self.rows |= {(name, queue): routine.data if routine else name for queue in texts_of(entry.get("queues").data)}

    def queues(self, service):
        return tuple(queue for name, queue in self.rows if name == service)

    def change(self, does, server, service, routine=""):
        """A server advertises a service at its queue, where it goes to the end of the rows, or takes it off."""
        row = service, self.queue_of.get(server)
        self.rows.pop(row, None)
        if does == "tpadvertise":
            self.rows[row] = routine

    def refusal(self, does, server, service=b"", routine=b"R"):
        """Why the monitor refuses the change to that server, or the empty text; a tick is refused always."""
        if does not in ("tpadvertise", "tpunadvertise"):
            return "TPEPROTO"
        if not NAME.fullmatch(service) or not NAME.fullmatch(routine):
            return "TPEINVAL"
        found = self.rows.get((service.decode(), self.queue_of.get(server)))
        if does == "tpunadvertise":
            return "" if found else "TPENOENT"
        if found:
            return "" if found == routine.decode() else "TPEMATCH"
        return "" if len(self.rows) < MOST_ROWS else "TPELIMIT"

    def withdraw(self, queue):
        """The queue has no server left."""
        self.rows = {row: routine for row, routine in self.rows.items() if row[1] != queue}

    def priority(self, service):
        found = self.all[service].get("priority") if service in self.all else None
        return found.data if found else 50

    def takes(self, service, subtype, data):
        """Whether a forward of such data to that word may be taken."""
        if not NAME.fullmatch(service) or not self.queues(service.decode()):
            return False
        entry = self.all.get(service.decode())
        if entry is None:
            return True
        accepts, conversational = entry.get("accepts"), entry.get("conversational")
        kind = f"c:{subtype}" if subtype else "octet"
        return not (conversational and conversational.data) and (not data or not accepts or kind in texts_of(accepts.data))


class Client:
    """What a client has done, as far as it is known."""

    def __init__(self, name, calls):
        # The call that it makes or waits in, and since when.
        self.name, self.calls, self.at, self.since = name, calls, 0, None
        # How many requests it has made, that of the tpcall in which it waits, or 0, those that no server has taken, and the numbers
        # of those that haven't ended.
        self.made, self.calling, self.sent, self.going = 0, 0, [], set()
        # Its open descriptors, and those of them whose replies have come.
        self.open, self.come = set(), set()
        # The calls that were passed over since it was answered last, since no request was made, as it seemed.
        self.passed = []

    def call(self):
        return self.calls[self.at] if self.since is not None and self.at < len(self.calls) else None

    def close(self, number):
        self.open.discard(number)
        self.come.discard(number)

    def gets(self, call):
        """Whether that tpgetrply is over at once."""
        wanted = self.open if call.descriptor is None else self.open & {call.descriptor}
        if found := wanted & self.come:
            self.close(min(found))
        return bool(found) or not wanted or "noblock" in call.flags


class Waiting:
    """What each client waits for: `calls` has of each client its calls, of those that send a request with its data's mark."""

    def __init__(self, document, calls):
        self.services = Services(document)
        self.clients = {name: Client(name, each) for name, each in calls.items()}
        self.in_hand, self.forwarded = {}, []
        # Of each server the call of its service that no other server has taken, and what it set for the priority of the next request.
        self.asked, self.set = {}, {}
        self.silent = {server for servers in self.services.servers.values() for server in servers}
        # The servers that are given up.
        self.gone = set()

    def greeted(self, server, when):
        """That server has greeted or is given up: behind the last one the clients begin."""
        if server in self.silent:
            self.silent.discard(server)
            if not self.silent:
                for client in self.clients.values():
                    client.since = when
                    self.go_on(client, when)

    def is_up(self, queues):
        """Whether a server of these queues is left."""
        return any(server not in self.gone for queue in queues for server in self.services.servers[queue])

    def go_on(self, client, when):
        """The client goes on with its calls, up to one in which it waits."""
        while (call := client.call()) and self.is_over(client, call):
            client.at, client.since = client.at + 1, when

    def is_over(self, client, call):
        """Makes the call, where it isn't under way yet; answers whether the client goes on."""
        if call.verb == "acall":
            self.send(client, call)
        elif call.verb == "call":
            client.calling = client.calling or self.send(client, call)
            if client.calling in client.going:
                return False
            client.calling = 0
        elif call.verb in ("get", "getany"):
            return client.gets(call)
        elif call.verb == "cancel":
            client.close(call.descriptor)
        return True

    def send(self, client, call):
        """The number of the call's request; 0 where its service has no row or no server left, or no reply could come."""
        queues = () if call.refused else self.services.queues(call.service)
        if self.is_up(queues) and len(client.going | client.come) < MOST_OPEN:
            return self.make(client, call, queues)
        client.passed.append(client.at)
        return 0

    def make(self, client, call, queues):
        client.made += 1
        client.going.add(client.made)
        is_awaited = call.verb == "call"
        if not is_awaited:
            client.open.add(client.made)
        service, since = call.service, client.since
        client.sent.append(
            Request(client.name, call.number, service, service, call.data, call.priority, since, since, "", 0, "", queues, client.made, is_awaited)
        )
        return client.made

    def out(self):
        """The requests that wait, of those that are known: the forwarded ones, those of services, and those of clients."""
        yield from self.forwarded
        yield from self.asked.values()
        for client in self.clients.values():
            yield from client.sent

    def is_served(self, client):
        """Whether a server has what the client waits for."""
        call = client.call()
        number = client.calling or (call and call.verb == "get" and call.descriptor)
        return any((each.client, each.number) == (client.name, number) for each in self.in_hand.values())

    def later(self, service, data):
        """The calls that have this service and data beside those whose requests are known to be out, with how many calls they are
        away."""
        for client in self.clients.values():
            for place in [*client.passed, *range(client.at + 1, len(client.calls))] if not self.is_served(client) else []:
                call = client.calls[place]
                if (call.service, call.data) == (service, data) and not call.refused:
                    yield abs(place - client.at), client, place
                    break

    def invoked(self, server, service, data, when):
        """A server got a request: it is one of those that wait with this service and data, and else one of a later call, where
        the calls before that were refused without a frame."""
        found = [each for each in self.out() if (each.service, each.data) == (service, data)]
        found.sort(key=lambda each: (-each.priority, each.since))
        if found:
            request = found[0]._replace(others=len(found) - 1)
            if request.by:
                self.forwarded.remove(found[0])
            elif request.server:
                del self.asked[request.server]
                self.set.pop(request.server, None)
            else:
                self.clients[request.client].sent.remove(found[0])
        elif later := sorted(self.later(service, data), key=lambda each: each[0]):
            _, client, place = later[0]
            request = self.jump(client, place, when)._replace(others=len(later) - 1)
        else:
            request = Request("", 0, service, service, data, 0, when, when, "", 0)
        self.in_hand[server] = request
        return request

    def jump(self, client, place, when):
        """The client has made the call at that place, so those before it are over. Answers its request."""
        call = client.calls[place]
        self.forget(client, lambda each: each.is_awaited and each.call < call.number)
        if call.verb == "call":
            self.forget(client, lambda each: each.call > call.number)
            client.at = place
        client.since = when
        number = self.make(client, call, self.services.queues(call.service))
        request = client.sent.pop()
        if call.verb == "call":
            client.calling = number
        else:
            client.at = max(client.at, place + 1)
            self.go_on(client, when)
        return request

    def forget(self, client, is_none):
        """Those requests of that client are not out, though no frame told it."""
        gone = {each for each in [*client.sent, *self.forwarded] if each.client == client.name and is_none(each)}
        client.sent = [each for each in client.sent if each not in gone]
        self.forwarded = [each for each in self.forwarded if each not in gone]
        for each in gone:
            client.going.discard(each.number)
            client.close(each.number)
        if client.calling not in client.going:
            client.calling = 0

    def passed_on(self, server, service, subtype, data, when):
        """A server forwarded its request; answers whether the forward may have been taken."""
        request = self.in_hand.pop(server, None)
        if request is None:
            return True
        if not self.services.takes(service, subtype, data):
            self.answer(request, when)
            return False
        word = service.decode()
        priority = self.priority(server, word)
        self.set.pop(server, None)
        queues = self.services.queues(word)
        self.forwarded.append(request._replace(service=word, data=data, priority=priority, since=when, by=server, queues=queues))
        return True

    def sets(self, server, absolute, number):
        """A service set the priority of its server's next request."""
        self.set[server] = absolute, number

    def priority(self, server, service):
        """That of a request of this server's service to that service."""
        usual = self.services.priority(service)
        absolute, number = self.set.get(server, (False, 0))
        return min(100, max(1, number + (0 if absolute else usual)))

    def asks(self, server, service, data, when):
        """A service calls another."""
        priority, queues = self.priority(server, service), self.services.queues(service)
        self.asked[server] = Request("", 0, service, service, data, priority, when, when, "", 0, server, queues)

    def replied(self, server):
        """A service was told what became of its call, or its server ended: its request is out no more."""
        self.asked.pop(server, None)
        self.forwarded = [each for each in self.forwarded if each.server != server]

    def told(self, server, when):
        """The request that the server had is answered; answers it, if there was one."""
        request = self.in_hand.pop(server, None)
        if request:
            self.answer(request, when)
        return request

    def answer(self, request, when):
        client = self.clients.get(request.client)
        if client:
            client.going.discard(request.number)
            client.come |= client.open & {request.number}
            client.passed = []
            self.go_on(client, when)

    def given_up(self, server, when):
        self.gone.add(server)
        queue = self.services.queue_of[server]
        if not self.is_up([queue]):
            self.services.withdraw(queue)
        self.greeted(server, when)
        swept = [each for each in self.out() if not self.is_up(each.queues)]
        self.forwarded = [each for each in self.forwarded if each not in swept]
        for client in self.clients.values():
            client.sent = [each for each in client.sent if each not in swept]
        for each in swept:
            self.answer(each, when)

    def by_queue(self):
        """The queues at which requests wait, each with these in the order in which they are taken."""
        found = {}
        for request in self.out():
            for queue in request.queues:
                if self.is_up([queue]):
                    found.setdefault(queue, []).append(request)
        return {queue: sorted(each, key=lambda one: (-one.priority, one.since)) for queue, each in sorted(found.items())}
