"""Many clients of `kakd` at once, and what a replay of their lines sends each."""
from connections import Lockstep, play, settle, text_of
from drawings import OPENING, keys_line
from edit_checks import last_drawing
from replay_checks import CHANGED, NEW, NOTES, STAYING, reports

# so many clients are here at most
MOST = 64
QUIT = ":quit<ret>"

# what clients strike who wait for each other, each in its turn
STRUCK = ["i", "ab<ret>", "<esc>k", "xd", "u"]
# so many clients, and how often each has its turn
CROWDS = {2: 40, 8: 10, MOST: 1}

# two clients of a file that the words name, each of whom waits for the other
EDITS = [
    (1, ":edit notes.txt<ret>"), (0, "%s\\bold\\b<ret>c"), (0, "n"), (1, "gei!"), (0, "e"), (1, "<esc>"), (0, "w"), (0, "<esc>:write<ret>"),
]


def run(program, replayer, report):
    play(program, report, full_house)
    play(program, report, notes, files=NOTES)
    play(program, report, notes_in_lockstep, replayer, files=NOTES)
    for count, turns in CROWDS.items():
        play(program, report, in_lockstep, replayer, count, turns, name=f"{count} in lockstep")
        play(program, report, at_once, count, name=f"{count} at once")


def full_house(place, report):
    """The 65th client is hung up on, and no other one hears of it."""
    server = place.serve()
    clients = [server.client() for _ in range(MOST)]
    names = {last_drawing(client.next())[1].split()[-1] for client in clients}
    report.check("server: 64 clients have 64 names", {f"client{number}" for number in range(MOST)}, names)
    settle(clients)
    further = [server.client() for _ in range(3)]
    report.check("server: further ones are sent nothing, and the end", [b""] * 3, [client.rest() for client in further])
    report.check("server: nobody is drawn that", [None] * MOST, settle(clients))
    report.check("server: one of 64 types", "hi\n", text_of(clients[-1].play("ihi<esc>")))
    report.check("server: which is drawn to the others", set(), {client.sees("hi\n") is None for client in clients[:-1]} - {False})
    settle(clients)
    clients.pop().close()
    report.check("server: one leaves, and the others are drawn that", [4] * (MOST - 1), [len(client.next().splitlines()) for client in clients])
    report.check("server: and one comes", "hi\n", text_of(server.client().next()))


def notes(place, report):
    """2,000 selections of one client, while another one types, line by line."""
    server = place.serve("notes.txt")
    first, second = server.clients(2)
    for client, keys in ((second, ":edit notes.txt<ret>"), (first, "%s\\bold\\b<ret>c"), (first, "new"), (second, "gei!<esc>"), (first, "<esc>:write<ret>")):
        client.send(keys_line(keys))
        drawn = settle([first, second])
    report.check("server: 2,000 selections: what the first sees", (CHANGED, "notes.txt 2000:4 normal 2000/2000 - client0", ""), last_drawing(drawn[0]))
    report.check("server: 2,000 selections: the file", NEW.encode(), (place.folder / "notes.txt").read_bytes())
    first.send(keys_line(QUIT))
    first.rest()
    settle([second])
    seen = (STAYING, "notes.txt 2000:11 normal 1/1 - client1", "modified buffers remain: notes.txt")
    report.check("server: 2,000 selections: what the second sees", seen, last_drawing(second.play("i?<esc>" + QUIT)))
    report.check("server: 2,000 selections: it may not go", True, second.is_quiet())


def compare(report, name, lockstep, wanted):
    report.check(f"server: {name}: so many were replayed", len(lockstep.came), len(wanted))
    for number, (one, came) in enumerate(zip(wanted, lockstep.came)):
        report.check_output(f"server: {name}: what client {number} is sent", one, came)


def end(report, name, server, clients):
    for client in clients:
        client.close()
    report.check(f"server: {name}: the end", (0, b""), server.end())


def notes_in_lockstep(place, report, replayer):
    """The same, key by key. What the first is sent begins with the drawing of the file."""
    lockstep = Lockstep(place.serve("notes.txt"))
    lockstep.come(2)
    for who, keys in EDITS:
        lockstep.strike(who, keys)
    report.check("server: 2,000 selections in lockstep: what the first sees", CHANGED, last_drawing(lockstep.came[0])[0])
    report.check("server: 2,000 selections in lockstep: the file", NEW.encode(), (place.folder / "notes.txt").read_bytes())
    lockstep.lines[0] = b"0 " + keys_line(":edit 'notes.txt'<ret>")
    first, second = reports(lockstep.replayed(replayer, NOTES))
    options = OPENING.splitlines(True)[0]
    compare(report, "2,000 selections in lockstep", lockstep, [options + first.removeprefix(OPENING), second])


def in_lockstep(place, report, replayer, count, turns):
    """Clients that wait for each other are sent what a replay of their keys sends them."""
    name = f"{count} in lockstep"
    lockstep = Lockstep(place.serve())
    lockstep.come(count)
    for turn in range(turns):
        for who in range(count):
            lockstep.strike(who, STRUCK[(turn + who) % len(STRUCK)])
    compare(report, name, lockstep, reports(lockstep.replayed(replayer, {})))
    end(report, name, lockstep.server, lockstep.clients)


def letters(who):
    """Letters that nobody else types."""
    return [chr(0x4E00 + 100 * who + number) for number in range(24)]


def type_letters(report, name, clients):
    """Each types its letters and waits for nobody; at last they see the same."""
    for who, client in enumerate(clients):
        client.send(b"".join(keys_line(key) for key in ["i", *letters(who), "<ret>", "<esc>"]))
    report.check(f"server: {name}: all type", set(), {client.until(" insert ") == b"" for client in clients} - {False})
    report.check(f"server: {name}: all are answered", set(), {client.until(" normal ") == b"" for client in clients} - {False})
    settle(clients)
    for client in clients:
        client.send(keys_line("gg"))
    texts = {drawn.splitlines()[0] for drawn in settle(clients)}
    report.check(f"server: {name}: all see the same", 1, len(texts))


def at_once(place, report, count):
    """The letters of clients who type into one text at once stand there once each, those of each client in its order."""
    name = f"{count} at once"
    server = place.serve()
    clients = server.clients(count)
    type_letters(report, name, clients)
    clients[0].send(keys_line(":write all<ret>"))
    settle(clients)
    text = (place.folder / "all").read_text()
    report.check(f"server: {name}: nothing else stands there", count * 25 + 1, len(text))
    for who in range(count):
        mine = set(letters(who))
        report.check(f"server: {name}: the letters of client {who}", letters(who), [letter for letter in text if letter in mine])
    end(report, name, server, clients)
