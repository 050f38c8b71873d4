"""A program that plays stream_run where that is not built: the same commands and texts, in Python and with nothing proved."""
import os
import sys

from jagyerti import connect, process

PLAY = '''#!{python} -I
import json, os, socket, sys
sys.path.insert(0, {packages!r})
from jagyerti import resp
words = sys.argv[1:]
key, group, consumer = words[:3]

def value(name, usual, at=1):
    return words[words.index(name) + at] if name in words else usual

idle, count, dead = value("--idle", "60000"), value("--count", "10"), value("--dead", "0")
lines = open(value("--lines", ""), "wb", buffering=0)
replies = open(value("--replies", ""), "rb")
connection = socket.socket(fileno=os.dup(0))
counts, added, lost = dict(done=0, batches=0, left=0, letters=0), [], []

def end(status, error=""):
    letters = ", dead letters %d" % counts["letters"] if dead != "0" else ""
    print("done %(done)d, batches %(batches)d, left pending %(left)d" % counts + letters, file=sys.stderr)
    if error:
        print("Error: " + error, file=sys.stderr)
    sys.exit(status)

def ask(*command):
    try:
        return resp.ask(connection, *command)
    except resp.ReplyError as error:
        end(1, "%s of entries: the server replied %s" % (command[0], error))
    except OSError:
        end(1, command[0] + ": the server closed the connection")

def acknowledge(ids):
    for stream, fields in added:
        ask("XADD", stream, "*", *(text for field in fields.items() for text in field))
    added.clear()
    if ids:
        counts["done"] += ask("XACK", key, group, *ids)
        counts["batches"] += 1
    for id, text in lost:
        for _, _, _, deliveries in ask("XPENDING", key, group, id, id, 1):
            add_letter(id, deliveries, "reason", text)
    lost.clear()

def add_letter(id, deliveries, *reason):
    for _, fields in ask("XCLAIM", key, group, consumer, 0, id):
        ask("XADD", value("--dead", "", 2), "*", *reason, "entry", id, "deliveries", deliveries, *fields)
        ask("XACK", key, group, id)
        counts["letters"] += 1

def is_done(reply):
    try:
        it = json.loads(reply)
        rows = it.get("add", [])
        return it["done"] is True and not it.keys() - {{"done", "add"}} and all(
            len(row) == 2 and type(row[0]) is str and row[0] and type(row[1]) is dict and row[1]
            and all(type(text) is str for text in row[1].values()) for row in rows)
    except (ValueError, AttributeError, TypeError, KeyError):
        return False

def handle(entries):
    ids = []
    for id, fields in entries:
        texts = [text.decode() for text in fields]
        it = dict(id=id.decode(), fields=list(zip(texts[::2], texts[1::2])), stream=key)
        try:
            lines.write(json.dumps(it, separators=(",", ":")).encode() + b"\\n")
        except OSError:
            pass
        reply = replies.readline()
        if reply == b"done\\n":
            ids.append(id)
        elif reply[:1] == b"{{" and is_done(reply):
            ids.append(id)
            added.extend(json.loads(reply).get("add", []))
        elif reply.startswith((b"later", b"dead ")):
            counts["left"] += 1
            word, _, text = reply.decode().strip().partition(" ")
            if text:
                print("%s %s: %s" % (it["id"], word, text), file=sys.stderr, flush=True)
            if word == "dead" and dead != "0":
                lost.append((id, text))
        else:
            acknowledge(ids)
            if reply == b"stop\\n":
                end(0)
            if reply:
                end(4, "the child's reply to the entry %s is not done, later, dead or stop: " % it["id"] + reply.decode().strip())
            end(4, "the child has no reply to the entry %s: its output ended before a reply" % it["id"])
    acknowledge(ids)

def give_up(*where):
    for id, _, _, deliveries in ask("XPENDING", key, group, *where) if dead != "0" else ():
        if deliveries >= int(dead):
            add_letter(id, deliveries)

if "--from" in words:
    try:
        resp.ask(connection, "XGROUP", "CREATE", key, group, value("--from", "0"), "MKSTREAM")
    except resp.ReplyError:
        pass
last = "0"
while True:
    if last == "0":
        give_up("-", "+", 100, consumer) if "--from" in words else None
    own = ask("XREADGROUP", "GROUP", group, consumer, "COUNT", count, "STREAMS", key, last)[0][1]
    if not own:
        break
    handle(own)
    last = own[-1][0].decode()
while True:
    give_up("IDLE", idle, "-", "+", 100)
    claimed = ask("XAUTOCLAIM", key, group, consumer, idle, "0-0", "COUNT", count)[1]
    handle(claimed)
    news = ask("XREADGROUP", "GROUP", group, consumer, "BLOCK", value("--block", "5000"), "COUNT", count, "STREAMS", key, ">")
    if news:
        handle(news[0][1])
    elif "--until-empty" in words and not claimed:
        end(0)
'''


def program(folder):
    """Returns the path of stream_run, or of one that plays it, which is written into this folder."""
    try:
        return process.find_program("stream_run")
    except connect.Failed:
        path = os.path.join(folder, "stream_run")
        with open(path, "w", encoding="utf-8") as file:
            file.write(PLAY.format(python=sys.executable, packages=process.PACKAGES))
        os.chmod(path, 0o755)
        return path
