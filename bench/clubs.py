"""Scripts of whole clubs for the measures: the game of a replay played at a table, with a watcher who makes much to do."""
import json

TURNS_OF_THE_STREAM = 150
LOOKS = 60000
MID_GAME = 30
# a card that nobody holds at any time, so that the request is refused
NO_CARD = 59


class Table:
    """The lines of a script in which the first acts of a replay are played at table 1 of room 1. The watcher's connection is the last."""

    def __init__(self, replay, acts):
        self.players = len(replay["players"])
        self.watcher = self.players + 1
        self.numbers = [0] * (self.watcher + 1)
        deck = "".join("abcdef"[card["suitIndex"]] + str(card["rank"]) for card in replay["deck"])
        self.lines = ["seed " + "0" * 64, "deck " + deck]
        for conn in range(1, self.watcher + 1):
            self.say(conn, "hello", name=f"m{conn}", key="k")
        self.open(replay.get("options", {}))
        self.play(replay["actions"][:acts])

    def say(self, conn, word, **fields):
        self.lines.append(f"0 {conn} {word} " + json.dumps(fields, separators=(",", ":"), sort_keys=True))

    def ask(self, conn, word, **fields):
        """The next request of a connection's member."""
        self.numbers[conn] += 1
        self.say(conn, word, number=self.numbers[conn], room=1, table=1, **fields)

    def open(self, options):
        self.ask(1, "open", options=options)
        for conn in range(1, self.watcher):
            self.ask(conn, "sit")
        self.ask(1, "start")

    def play(self, actions):
        for turn, action in enumerate(actions):
            conn = 1 + turn % self.players
            if action["type"] < 2:
                self.ask(conn, ("play", "discard")[action["type"]], order=action["target"])
            else:
                clue = {("color", "rank")[action["type"] - 2]: action["value"]}
                self.ask(conn, "clue", to=action["target"], **clue)

    def text(self):
        return "".join(line + "\n" for line in self.lines).encode()


def stream(replay):
    """A watcher changes whose sight it shares, and is sent the whole stream anew each time."""
    table = Table(replay, None)
    for turn in range(TURNS_OF_THE_STREAM):
        table.ask(table.watcher, "watch", shadow=(None, *range(table.players))[turn % (table.players + 1)])
    return table.text()


def looks(replay):
    """In the middle of a game, looks that show nothing new, and requests that are refused."""
    table = Table(replay, MID_GAME)
    for turn in range(LOOKS):
        if turn % 2:
            table.say(table.watcher, "look", room=1)
        else:
            table.say(1 + turn % table.players, "play", number=600 + turn % 8, order=NO_CARD, room=1, table=1)
    return table.text()
