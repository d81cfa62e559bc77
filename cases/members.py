"""Members of a club who say hello, sit down and play by what they are sent, and nothing else.

A member keeps what its link was sent of the table that it follows. It plays a card that must fit,
else clues its partner, else discards; so a game of two without a clock ends Normal.
"""
import json
import time

import links
from servers import Wrong, demand

SECONDS = 20.0
TEXT_OF_A_CARD = 2


def message(word, **fields):
    """A message as a client writes it."""
    return word + " " + json.dumps(fields, separators=(",", ":"), sort_keys=True)


def told(line):
    """The word and the value of a line."""
    word, _, rest = line.partition(" ")
    return word, json.loads(rest)


class Member:
    """One who is on a link, and what it was sent there."""

    def __init__(self, link, name, key=None):
        self.link, self.name, self.key = link, name, key or f"key of {name}"
        self.room = self.table = self.asked = 0
        self.lines, self.replies, self.longest = [], {}, 0.0
        self.forget()

    def forget(self):
        """A stream begins anew: what was shown before is dropped."""
        self.seat, self.role, self.players, self.hands, self.cards = None, None, [], {}, {}
        self.sets, self.state, self.review, self.saved = {}, None, None, None
        self.loaded = self.missing = self.ended = self.deck = None
        self.closed = False
        self.streamed = []

    # What comes

    def take(self, seconds):
        """Takes a line in, and answers it; None if none comes in time."""
        line = self.link.line(seconds)
        if line is not None:
            self.lines.append(line)
            word, value = told(line)
            if word in ("ok", "refused"):
                self.replies[value["number"]] = (word, value)
            elif word not in ("welcome", "denied", "bad"):
                self.learn(word, value)
                self.streamed.append(line)
        return line

    def learn(self, word, value):
        """What a line of the stream says."""
        if word == "viewer":
            self.forget()
            self.role, self.seat = value["role"], value.get("seat")
        elif word == "game":
            self.players, self.hands, self.cards, self.sets = value["players"], {}, {}, {}
        elif word == "draw":
            self.hands.setdefault(value["seat"], []).append(value["order"])
            self.cards[value["order"]] = value["card"]
        elif word in ("play", "discard"):
            self.hands[value["seat"]].remove(value["order"])
        elif word == "hand":
            self.sets[value["seat"]] = {order: text for order, text in value["sets"]}
        elif word == "state":
            self.state, self.sets = value, {}
        elif word in ("end", "deck", "review"):
            name = "ended" if word == "end" else word
            setattr(self, name, value["cards"] if word == "deck" else value)
            if word == "review":
                self.state, self.sets = None, {}
        elif word in ("saved", "loaded", "nogame"):
            setattr(self, "missing" if word == "nogame" else word, value["id"])
        elif word == "closed":
            self.closed = True

    def wait_for(self, holds, what, seconds=SECONDS):
        """Takes lines in until something holds: the seconds that it took."""
        began = time.monotonic()
        while not holds():
            left = began + seconds - time.monotonic()
            if left <= 0 or self.take(left) is None and not holds():
                raise Wrong(f"{self.name} was not sent {what} in {seconds:.0f} s")
        return time.monotonic() - began

    def settle(self, turn, seconds=SECONDS):
        """Waits until the table is shown with so many acts, and every hand behind them."""
        return self.wait_for(lambda: self.is_settled(turn), f"the state of turn {turn}", seconds)

    def is_settled(self, turn):
        """Whether the table is shown with so many acts."""
        shown = self.state and self.state["turn"] == turn
        return shown and len(self.sets) == len(self.players)

    def shown(self, *words):
        """The lines of the stream with these words."""
        return [line for line in self.streamed if told(line)[0] in words]

    def public(self):
        """The lines that everybody is sent alike."""
        return self.shown("game", "play", "discard", "clue", "state", "end", "deck")

    # What is asked

    def say(self, word, **fields):
        """Sends a message."""
        self.link.send(message(word, **fields))

    def hello(self):
        """Says who it is."""
        self.say("hello", name=self.name, key=self.key)
        line = self.take(SECONDS)
        demand(line == message("welcome", name=self.name), f"{self.name}'s hello got {line}")

    def follow(self, room, table=1):
        """Will ask at this table, with numbers from 1 on."""
        self.room, self.table, self.asked = room, table, 0

    def request(self, word, **fields):
        """The next request at the table: the word and the value of its reply."""
        self.asked += 1
        self.say(word, number=self.asked, room=self.room, table=self.table, **fields)
        number, began = self.asked, time.monotonic()
        self.replies.pop(number, None)
        self.wait_for(lambda: number in self.replies, f"a reply to {word}")
        self.longest = max(self.longest, time.monotonic() - began)
        return self.replies[number]

    def ask(self, word, **fields):
        """The next request at the table, which is to be done."""
        reply = self.request(word, **fields)
        demand(reply[0] == "ok", f"{self.name}'s {word} {fields} got {reply}")

    # What is played

    def fits(self, text):
        """Whether a card of one of these identities fits, whichever it is."""
        stacks = self.state["stacks"]
        return all(int(it[1]) == stacks["abcdef".index(it[0])] + 1 for it in identities(text))

    def choice(self):
        """The request for the next act."""
        own = sorted(self.hands[self.seat])
        known = self.sets[self.seat]
        for order in own:
            if self.fits(known[order]):
                return "play", {"order": order}
        if self.state["tokens"]:
            return "clue", self.clue()
        return "discard", {"order": own[0]}

    def clue(self):
        """A clue for the partner: of a card that fits, and that the partner can't tell yet."""
        partner = (self.seat + 1) % len(self.players)
        hand, known = sorted(self.hands[partner]), self.sets[partner]
        useful = [it for it in hand if self.fits(self.cards[it]) and not self.fits(known[it])]
        suit, rank = self.cards[(useful or hand)[0]]
        by_color = useful and all(it[1] == rank for it in identities(known[useful[0]]))
        kind = {"color": "abcdef".index(suit)} if by_color else {"rank": int(rank)}
        return {"to": partner, **kind}

    def act(self):
        """Does the next act, and waits until it is shown: how long the reply took."""
        turn = self.state["turn"]
        began = time.monotonic()
        word, fields = self.choice()
        self.ask(word, **fields)
        took = time.monotonic() - began
        self.settle(turn + 1)
        return took


def identities(text):
    """The identities of a text in which they stand one behind the other."""
    return [text[at:at + TEXT_OF_A_CARD] for at in range(0, len(text), TEXT_OF_A_CARD)]


class Game:
    """A game of two members and a watcher at the first table of a room: what they saw, how long
    replies took, and how long the news took to a link that said nothing."""

    def __init__(self, server, room, names):
        self.room, self.replies, self.news = room, [], []
        self.members = [Member(server.link(), name) for name in names]
        self.players, self.watcher = self.members[:2], self.members[2]

    def gather(self, options=None):
        """All say hello; two sit down, the third watches, and the game starts."""
        for member in self.members:
            member.hello()
            member.follow(self.room)
        host = self.players[0]
        host.ask("open", options=options or {})
        for player in self.players:
            player.ask("sit")
        self.watcher.ask("watch")
        host.ask("start")
        for member in self.members:
            member.settle(0)

    def play(self):
        """Plays until the game has ended: the number of acts."""
        turn = 0
        while self.players[0].ended is None:
            actor = self.players[self.players[0].state["current"]]
            self.replies.append(actor.act())
            turn += 1
            self.tell_others(actor, turn)
        return turn

    def tell_others(self, actor, turn):
        """Waits until those who said nothing were shown an act, and notes how long that took."""
        began = time.monotonic()
        for member in self.members:
            if member is not actor:
                member.settle(turn)
                self.news.append(time.monotonic() - began)

    def wait_for_saved(self):
        """The id under which the game is kept, of which everybody is told."""
        for member in self.members:
            member.wait_for(lambda it=member: it.saved is not None, "that the game is kept")
        ids = {member.saved for member in self.members}
        demand(len(ids) == 1, f"the game is kept under {ids}")
        return ids.pop()

    def compare(self):
        """All were shown one game, and nobody a card that the seat may not see."""
        shown = [it.public() for it in self.members]
        demand(shown[0] == shown[1] == shown[2], "the game went otherwise for another")
        for member in self.members:
            for line in member.shown("draw"):
                value = told(line)[1]
                hidden = value["seat"] == member.seat
                demand(hidden == (value["card"] is None), f"{member.name} was sent {line}")

    def close(self):
        """Ends the links."""
        for member in self.members:
            member.link.close()


def answer_before_hello(link, seconds=links.SECONDS):
    """What a link is sent that looks at a room and has not said hello."""
    link.send(message("look", room=1))
    return link.line(seconds)
