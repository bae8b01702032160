#!/usr/bin/env python3
"""Shows the bytes of a log as lines, by the tables of docs/FORMAT.md and without the server.

  .ci/log.py FILE

A record is a line: a COMMAND with the moment and the begin of its batch and its outcome, an EVENT, or a REJECTION.
Behind the last one stands END, the closed gate. Which byte is which record, and which fields it has in which order, is
read from the page. A key is written as #6, the sixth of partition 1, or 2#6, of partition 2, and as - where it is 0. A
text stands as it is, or as JSON has it where blanks or signs are in it; values, variables and models stand as in
requests, and expressions with all their parentheses. With which correlation key an instance was started is shown where
there is one, and so are the items of a body, and the role of an element that isn't plain. Bytes that aren't spelled as
the page says are refused.
"""
import json
import os
import re
import sys

TOP = os.path.dirname(os.path.dirname(os.path.abspath(__file__)))
# the fields of records, as the tables of the page tell them: what each is called here, and how it is spelled
PHRASES = """
a model = model model; variables = variables variables; none =; its key = key key; its value = value value
the process, a text = process text; the version, a number = version number; the instance's key = instance key
the definition's key = definition key; the element's key = element key; the job's key = job key; its text = text text
the incident's key = incident key; the message's key = message key; the timer's key = timer key; its name, a text = name text
a flag, whether it is local = local flag; the type and the worker, texts = type text, worker text
the timeout, a duration = timeout long; how many at most, a number = max number; the message, a text = message text
how many retries are left, a number = retries number; the retries that are left, a number = retries number
the retries, a number = retries number; its retries, a number = retries number; the code, a text = code text
the name and the correlation key, texts = name text, correlationKey text; the id, a text = id text
the name, the correlation key and the id, texts = name text, correlationKey text, id text
the time to live, a duration = timeToLive long; the deadline, a timestamp = deadline long; when it is due, a timestamp = due long
the partition that has it, a number = partition number; the other partition, a number = partition number
its items, a list of whole numbers, each 8 bytes in two's complement = items items; its role, a byte = role role
a byte for its kind = kind incident
the flows to take, a list of their ids, texts = flows texts; the jobs, a list of their keys = jobs keys
the key of the element that is left = element key; the flow's id, a text = flow text; the key of its element = element key
its type, a text = type text; the worker, a text = worker text; all variables that its element sees = variables variables
the id of the service task and the type, texts = node text, type text; the key of the element that waits = element key
the id of the catch event or boundary event, a text = node text; the id of the receive task, catch event or boundary event, a text = node text; the key of the element that has it = element key
the key of the element that waited, or of the activity at whose boundary the error is caught = element key
the key of the element that was asked for = element key; the key of the element that it stands on = element key
the key of the job that is its cause, 0 where it is of another kind than 3 = job key
the key of the job that was its cause, or 0 = job key; the element, its key = element key; the definition, its key = definition key
its scope, its key, 0 at the process itself = scope key; the node, its id, a text = node text
the flow by which the token came, its id, a text = flow text
the correlation key of the message that started the instance, a text = started filled
the subscription's key = subscription key; the messages that were kept, a list of their keys = messages keys
the name, the correlation key and the id of the process, texts = name text, correlationKey text, process text
a flag, whether it ends with the first message that was taken = cancel flag; the correlation key, a text = correlationKey text
"""
# the kinds of nodes, as the page tells them: in a request, the definition of the event, and the field in that
NODES = {
    "a start event": ("startEvent",), "an end event": ("endEvent",), "a service task": ("serviceTask",), "a subprocess": ("subProcess",),
    "a start event with a message": ("startEvent", "messageEventDefinition", "name"),
    "an end event that terminates": ("endEvent", "terminateEventDefinition"), "an intermediate throw event": ("intermediateThrowEvent",),
    "an end event for compensation": ("endEvent", "compensateEventDefinition"),
    "an intermediate throw event for compensation": ("intermediateThrowEvent", "compensateEventDefinition"),
    "an exclusive gateway": ("exclusiveGateway",), "a parallel gateway": ("parallelGateway",), "an event gateway": ("eventBasedGateway",),
    "a catch event with a date": ("intermediateCatchEvent", "timerEventDefinition", "timeDate"),
    "a catch event with a duration": ("intermediateCatchEvent", "timerEventDefinition", "timeDuration"),
    "a boundary event with a date": ("boundaryEvent", "timerEventDefinition", "timeDate"),
    "a boundary event with a duration": ("boundaryEvent", "timerEventDefinition", "timeDuration"),
    "a receive task": ("receiveTask", "messageEventDefinition", "correlationKey"),
    "a catch event with a message": ("intermediateCatchEvent", "messageEventDefinition", "correlationKey"),
    "a boundary event with a message": ("boundaryEvent", "messageEventDefinition", "correlationKey"),
    "a boundary event for an error": ("boundaryEvent", "errorEventDefinition", "errorCode"),
    "a boundary event for compensation": ("boundaryEvent", "compensateEventDefinition", "handler"),
}
OPERATORS = ["+", "-", "*", "=", "!=", "<", "<=", ">", ">=", "and", "or"]


class BadLog(Exception):
    """Bytes that aren't spelled as the page says."""


def compact(value):
    return json.dumps(value, ensure_ascii=False, separators=(",", ":"))


def word(text):
    return text if re.fullmatch(r'[^\s",\[\]{}\x00-\x1f]*', text) else compact(text)


def key(number):
    partition, count = divmod(number, 2**51)
    return "-" if number == 0 else f"{'' if partition == 1 else partition}#{count}"


def tables(page):
    """The tables of the page: the words of each head with its rows, in their order."""
    rows = [[cell.strip() for cell in line.strip().strip("|").split("|")] for line in page.splitlines() if line.startswith("|")]
    for row, behind in zip(rows, [*rows[1:], [""]]):
        if set(behind[0]) == {"-"}:
            head = row
        elif set(row[0]) != {"-"}:
            yield head, row


def layout(page):
    """By the page: the commands and the events by their bytes, with their fields; and what other bytes mean."""
    phrases = {}
    for entry in PHRASES.strip().replace("\n", "; ").split("; "):
        phrase, fields = entry.split(" =", 1)
        phrases[phrase] = [field.split() for field in fields.split(",") if field]

    def called(phrase):
        if phrase not in phrases:
            raise SystemExit(f".ci/log.py: docs/FORMAT.md has a field that has no name here: {phrase}")
        return phrases[phrase]

    found = {"command": {}, "event": {}, "kind of incident": {}, "kind of node": {}, "role of an element": {}}
    activating = []
    for head, row in tables(page):
        if head[0] == "byte" and len(row) == 3:
            found[head[1]][int(row[0])] = (row[1].split(",")[0], row[2])
        elif head[0] == "byte":
            found[head[1]][int(row[0])] = row[1]
        elif head[0].startswith("field of ELEMENT_ACTIVATING"):
            activating += called(", ".join(filter(None, [row[0], row[1].split(";")[0]])))
    for kind in "command", "event":
        for byte, (name, told) in found[kind].items():
            fields = activating if told == "see the next table" else [field for phrase in told.split("; ") for field in called(phrase)]
            found[kind][byte] = (name, fields)
    rejections = re.search(r"a byte for the kind: (.*?);", page)[1]
    found["rejection"] = {int(byte): name.upper().replace(" ", "_") for byte, name in re.findall(r"(\d+) ([a-z ]+)", rejections)}
    return found


with open(f"{TOP}/docs/FORMAT.md", encoding="utf-8") as opened:
    LAYOUT = layout(opened.read())


class Reader:
    """Bytes that are read from the front on."""

    def __init__(self, data):
        self.data, self.at = data, 0

    def wants(self, holds, what):
        if not holds:
            raise BadLog(f"{what}, before byte {self.at}")

    def take(self, count):
        self.wants(self.at + count <= len(self.data), "the end of the file")
        self.at += count
        return self.data[self.at - count : self.at]

    def of(self, meanings, what):
        byte = self.take(1)[0]
        self.wants(byte in meanings, f"{byte} is no {what}")
        return meanings[byte]

    def unsigned(self, count):
        return int.from_bytes(self.take(count), "big")

    def members(self, read):
        return [read() for _ in range(self.unsigned(4))]

    def plain(self):
        data = self.take(self.unsigned(4))
        try:
            return data.decode()
        except UnicodeDecodeError as fault:
            raise BadLog(f"{fault}, before byte {self.at}") from None

    def truth(self):
        return self.of({0: False, 1: True}, "truth value")

    def whole(self):
        return int.from_bytes(self.take(8), "big", signed=True)

    def expression(self, outer=False):
        byte = self.take(1)[0]
        if byte == 0:
            return str(self.whole())
        if byte == 1:
            return compact(self.truth())
        if byte in (2, 3):
            return compact(self.plain()) if byte == 2 else self.plain()
        if byte == 4:
            return f"[{', '.join(self.members(lambda: self.expression(True)))}]"
        if byte in (5, 6):
            return f"{'not' if byte == 5 else '-'}({self.expression(True)})"
        self.wants(7 <= byte <= 17, f"{byte} is no expression")
        chain = f"{self.expression()} {OPERATORS[byte - 7]} {self.expression()}"
        return chain if outer else f"({chain})"

    def source(self):
        """An expression as a request has it: a text that doesn't begin with = is that text."""
        start = self.at
        if self.take(1) == b"\2" and not (text := self.plain()).startswith("="):
            return text
        self.at = start
        return f"={self.expression(True)}"

    def mapping(self):
        return {"source": self.source(), "target": self.plain()}

    def several(self):
        sequential = {"isSequential": True} if self.truth() else {}
        return {**sequential, "inputCollection": self.source(), "inputElement": self.plain()}

    def node(self):
        node = {"id": self.plain()}
        kind, *event = NODES[self.of(LAYOUT["kind of node"], "kind of node")]
        node["kind"] = kind
        host, task, error, timer = kind == "boundaryEvent", kind == "serviceTask", "errorCode" in event, "timerEventDefinition" in event
        message, keyed, undone = "messageEventDefinition" in event, "correlationKey" in event, "handler" in event
        parent, attached, interrupts, default, named = self.plain(), self.plain(), self.truth(), self.plain(), self.plain()
        self.wants(host == bool(attached) and interrupts <= host, f"an activity at {node}")
        self.wants(not default or kind == "exclusiveGateway", f"a default flow at {node}")
        self.wants(task or error or message or undone or not named, f"a type, a code, a handler or a name at {node}")
        self.wants(self.truth() == (timer or keyed), f"a time or a correlation key at {node}")
        source = {event[1]: self.source()} if timer or keyed else {}
        about = {"name": named, **source} if keyed else source or ({event[1]: named} if message or undone or (error and named) else {})
        retries = self.unsigned(4)
        self.wants(task or retries == 0, f"retries at {node}")
        handler = self.truth()
        self.wants(task or not handler, f"a handler at {node}")
        several = self.several() if self.truth() else {}
        self.wants(not several or kind in ("serviceTask", "receiveTask", "subProcess"), f"several instances at {node}")
        inputs, outputs = self.members(self.mapping), self.members(self.mapping)
        more = {"parent": parent, "attachedToRef": attached, "default": default, "type": named if task else "", "retries": retries, "isForCompensation": handler}
        node.update({name: value for name, value in more.items() if value})
        if host and not interrupts:
            node["cancelActivity"] = False
        if event:
            node[event[0]] = about
        if several:
            node["multiInstanceLoopCharacteristics"] = several
        node.update({name: value for name, value in {"inputs": inputs, "outputs": outputs}.items() if value})
        return node

    def flow(self):
        flow = {"id": self.plain(), "sourceRef": self.plain(), "targetRef": self.plain()}
        return {**flow, "conditionExpression": self.source()} if self.truth() else flow

    def model(self):
        process, tag = self.plain(), self.plain()
        return compact({"process": process, **({"versionTag": tag} if tag else {}), "nodes": self.members(self.node), "flows": self.members(self.flow)})

    def plain_value(self):
        return self.of({0: self.whole, 1: self.truth, 2: self.plain, 3: lambda: self.members(self.whole)}, "value")()

    def value(self):
        return compact(self.plain_value())

    def variables(self):
        found = self.members(lambda: (self.plain(), self.plain_value()))
        names = [name.encode() for name, _ in found]
        self.wants(all(one < behind for one, behind in zip(names, names[1:])), "names of variables that don't ascend")
        return compact(dict(found))

    def key(self):
        return key(self.unsigned(8))

    def keys(self):
        return f"[{','.join(self.members(self.key))}]"

    def text(self):
        return word(self.plain())

    def filled(self):
        """A text that is shown where it isn't empty."""
        return self.text() or None

    def texts(self):
        return f"[{','.join(self.members(self.text))}]"

    def number(self):
        return str(self.unsigned(4))

    def long(self):
        return str(self.unsigned(8))

    def flag(self):
        return compact(self.truth())

    def items(self):
        """The items of a body, which are shown where there are any."""
        return compact(found) if (found := self.members(self.whole)) else None

    def role(self):
        """A role, which is shown where it isn't plain."""
        return None if (found := self.of(LAYOUT["role of an element"], "role of an element")) == "plain" else found

    def incident(self):
        return self.of(LAYOUT["kind of incident"], "kind of incident")

    def zero(self, count=1):
        self.wants(not any(self.take(count)), "a byte that isn't 0")

    def record(self, kind):
        """A command or an event: its name, and its fields."""
        name, fields = self.of(LAYOUT[kind], kind)
        told = [(field, getattr(self, spelling)()) for field, spelling in fields]
        return name, " ".join(f"{field}={value}" for field, value in told if value is not None)


def records(data):
    """The records of a log, each with the place of its first byte and the one behind its last. A command begins with its gate."""
    reader = Reader(data)
    while len(data) > 1 and data[reader.at]:
        start = reader.at
        reader.take(1)
        behind = reader.unsigned(8) + reader.at
        reader.wants(behind < len(data), "a frame that is longer than the file")
        reader.wants(reader.take(1) == b"\1", "another format")
        at, begin = reader.unsigned(8), reader.unsigned(8)
        name, fields = reader.record("command")
        accepted = reader.truth()
        count = reader.unsigned(4) if accepted else 0
        outcome = f"accepted={count}" if accepted else "rejected"
        yield start, reader.at, f"COMMAND {name} at={at} begin={begin} {outcome} {fields}".rstrip(" ")
        for _ in range(count):
            start = reader.at
            record = " ".join(reader.record("event"))
            yield start, reader.at, f"EVENT {record}"
        if not accepted:
            start = reader.at
            kind, reason = reader.of(LAYOUT["rejection"], "rejection"), reader.plain()
            as_it_is = reason.isprintable() and reason == reason.strip() and not reason.startswith('"')
            yield start, reader.at, f"REJECTION {kind} {reason if as_it_is else compact(reason)}"
        reader.wants(reader.at == behind, "a length that isn't that of its batch")
    yield reader.at, reader.at + 1, "END"


def lines(data):
    """The lines of a log."""
    return [line for _, _, line in records(data)]


if __name__ == "__main__":
    with open(sys.argv[1], "rb") as file:
        print("\n".join(lines(file.read())))
