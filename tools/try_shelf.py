"""Tries `xmf shelf` with many calls at once, with kills and with damaged files: try_shelf.py XMF FOLDER CALLS KILLS DAMAGES.

A shelf here is two lists, made of the file's bytes and back, and its rules are written once more from the request. Each line that is printed is a
check that failed; the last line says what was done.
"""
import os
import random
import signal
import struct
import subprocess
import sys
import threading
import time

xmf, folder, calls, kills, damages = sys.argv[1], sys.argv[2], *map(int, sys.argv[3:6])
shelf = os.path.join(folder, "shelf")
PART = 65536
SIZE = 512 + 16 * PART
chance = random.Random(7)
failures = []
done = {"calls": 0, "answered": 0, "refused": 0}


def expect(right, name):
    if not right and len(failures) < 20:
        failures.append(name)
        print(name + ": failed")


def call(*words, sheet=None):
    """Status, refusal's number, and what was written."""
    got = subprocess.run([xmf, "shelf", "-s", shelf, *map(str, words)], input=sheet, stdin=None if sheet is not None else subprocess.DEVNULL, capture_output=True)
    line = got.stderr.split(b"\t")
    number = int(line[1]) if got.returncode == 2 and line[0] == b"R" else None
    expect((got.returncode == 0 and not got.stderr) or number is not None or got.returncode == 1, f"{words}: status {got.returncode}, {got.stderr[:80]}")
    done["calls"] += 1
    done["answered" if got.returncode == 0 else "refused"] += 1
    return got.returncode, number, got.stdout


# ---- the rules once more, on a file's bytes


def cards(data):
    return [struct.unpack(">4Q", data[i * 32 : i * 32 + 32]) for i in range(16)]


def sheets(data):
    """The sheets that are there, by label."""
    return {card[:3]: data[512 + i * PART :][: card[3]] for i, card in enumerate(cards(data)) if card[1]}


def judged(data, label):
    taken = [card for card in cards(data) if card[1]]
    if any(card[3] > PART for card in taken) or len({card[:3] for card in taken}) < len(taken):
        return 39
    return 27 if label[1] == 0 else None


def after(data, i, card, sheet):
    """The file with card i and its part replaced."""
    data = bytearray(data)
    data[i * 32 : i * 32 + 32] = struct.pack(">4Q", *card)
    data[512 + i * PART : 512 + (i + 1) * PART] = sheet.ljust(PART, b"\0")
    return bytes(data)


def put(data, label, sheet):
    """A refusal's number, or 0 and the file that is left."""
    number = judged(data, label)
    if number:
        return number, data
    if label in sheets(data):
        return 29, data
    if len(sheet) > PART:
        return 30, data
    for i, card in enumerate(cards(data)):
        if card[1] == 0:
            return 0, after(data, i, (*label, len(sheet)), sheet)
    return 28, data


def drop(data, label):
    number = judged(data, label)
    if number:
        return number, data
    for i, card in enumerate(cards(data)):
        if card[:3] == label:
            return 0, after(data, i, (0, 0, 0, 0), b"")
    return 27, data


def get(data, label):
    number = judged(data, label)
    if number:
        return number, b""
    found = sheets(data).get(label)
    return (27, b"") if found is None else (0, found)


def read():
    with open(shelf, "rb") as file:
        return file.read()


def write(data):
    with open(shelf, "wb") as file:
        file.write(data)


def some_sheet(source):
    size = source.choice([0, 1, 100, 3000, PART - 1, PART])
    return source.randbytes(size)


# ---- desks at the same time


def desk(number, most, count):
    """A desk makes calls of its own. What it put and did not drop must be there, whatever the others do."""
    source = random.Random(number)
    own = {}
    for _ in range(count):
        label = (number, source.randint(1, most), source.randint(0, 1))
        kind = source.random()
        if kind < 0.4:
            sheet = some_sheet(source)
            status, refusal, _ = call("put", *label, sheet=sheet)
            if label in own:
                expect(refusal == 29, f"desk {number}: a second put gave {status}, {refusal}")
            elif refusal != 28:
                expect(status == 0, f"desk {number}: a put gave {status}, {refusal}")
                own[label] = sheet
        elif kind < 0.8:
            status, refusal, got = call("get", *label)
            if label in own:
                expect(status == 0 and got == own[label], f"desk {number}: a get gave {status}, {refusal}, {len(got)} bytes")
            else:
                expect(refusal == 27 and not got, f"desk {number}: a get of nothing gave {status}, {refusal}")
        else:
            status, refusal, _ = call("drop", *label)
            expect(refusal == 27 if label not in own else status == 0, f"desk {number}: a drop gave {status}, {refusal}")
            own.pop(label, None)
    return own


def together(desks, most, count):
    write(bytes(SIZE))
    owned = [None] * desks
    threads = [threading.Thread(target=lambda i=i: owned.__setitem__(i, desk(i + 1, most, count))) for i in range(desks)]
    for thread in threads:
        thread.start()
    for thread in threads:
        thread.join()
    all_owned = {}
    for own in owned:
        all_owned.update(own)
    expect(sheets(read()) == all_owned, f"{desks} desks: what is on the shelf is what they put and did not drop")


# ---- kills


def free():
    """Whether the folder can be locked at once; waits for what still runs."""
    for _ in range(200):
        if subprocess.run(["flock", "-n", folder, "true"]).returncode == 0:
            return True
        time.sleep(0.02)
    return False


def slowest():
    start = time.time()
    call("put", 9, 9, 9, sheet=b"x" * PART)
    call("drop", 9, 9, 9)
    return (time.time() - start) / 2


def killed(rounds):
    write(bytes(SIZE))
    length = slowest()
    changed = 0
    for round in range(rounds):
        before = read()
        label = (chance.randint(1, 2), chance.randint(1, 6), chance.randint(0, 1))
        if label in sheets(before):
            words, expected = ["drop", *label], drop(before, label)[1]
            sheet = b""
        else:
            sheet = some_sheet(chance)
            words, expected = ["put", *label], put(before, label, sheet)[1]
        process = subprocess.Popen([xmf, "shelf", "-s", shelf, *map(str, words)], stdin=subprocess.PIPE, stdout=subprocess.DEVNULL, stderr=subprocess.DEVNULL, start_new_session=True)
        try:
            process.stdin.write(sheet)
            process.stdin.close()
        except BrokenPipeError:
            pass
        time.sleep(chance.random() * length * 1.3)
        try:
            # all processes of the call, or the first one alone
            if round % 3:
                os.killpg(process.pid, signal.SIGKILL)
            else:
                process.kill()
        except ProcessLookupError:
            pass
        process.wait()
        expect(free(), f"kill {round}: a lock stays")
        left = read()
        changed += left == expected != before
        expect(left in (before, expected), f"kill {round}: the file is neither the one before nor the one after the call")
    rest = set(os.listdir(folder)) - {"shelf", "shelf.xmf-new"}
    expect(not rest, f"files are left: {rest}")
    write(bytes(SIZE))
    expect(call("put", 1, 2, 3, sheet=b"sheet")[0] == 0 and os.listdir(folder) == ["shelf"], "a call after the kills leaves the shelf alone")
    return changed


# ---- damage


def damaged(rounds):
    """Files that were changed by no call: each answer must be that of the rules, or a message."""
    refusals = 0
    for round in range(rounds):
        data = bytes(SIZE)
        labels = [(chance.randint(0, 2), chance.randint(1, 3), chance.randint(0, 1)) for _ in range(6)]
        for label in labels:
            data = put(data, label, some_sheet(chance))[1]
        data = bytearray(data)
        for _ in range(chance.randint(1, 4)):
            place = chance.randrange(512) if chance.random() < 0.6 else 32 * chance.randrange(6) + chance.choice([15, 23, 29, 30, 31])
            data[place] = chance.choice([0, 1, 2, 255, chance.randrange(256)])
        data = bytes(data)
        if round % 8 == 0:
            data = chance.choice([data[: chance.randrange(SIZE)], data + b"\0", b"", data[:512], data[: SIZE - 1]])
        write(data)
        label = chance.choice([*labels, (1, 0, 0), (3, 3, 3)])
        sheet = some_sheet(chance)
        results = call("get", *label), call("drop", *label), None
        if len(data) != SIZE:
            for status, _, got in results[:2]:
                expect(status == 1 and not got, f"damage {round}: status {status} of a file that is no shelf")
            expect(read() == data, f"damage {round}: a file that is no shelf was changed")
            continue
        number, wanted = get(data, label)
        status, refusal, got = results[0]
        refusals += number == 39
        expect((status, refusal or 0, got) == (2 if number else 0, number, wanted), f"damage {round}: get gave {status}, {refusal}")
        number, data = drop(data, label)
        expect((results[1][1] or 0) == number and read() == data, f"damage {round}: drop gave {results[1][:2]}")
        status, refusal, _ = call("put", *label, sheet=sheet)
        number, data = put(data, label, sheet)
        expect((refusal or 0) == number and read() == data, f"damage {round}: put gave {status}, {refusal}")
    return refusals


together(2, 4, calls // 4)
together(2, 8, calls // 4)
together(3, 4, calls // 6)
changes = killed(kills)
expect(kills < 100 or kills / 20 < changes < kills, f"kills: {changes} of {kills} calls were done")
refusals = damaged(damages)
expect(damages < 100 or refusals > damages / 20, f"damages: {refusals} of {damages} refused with 39")
print(f"{done['calls']} calls, {done['answered']} answered; {kills} kills, {changes} of them after the change; {damages} damaged files, {refusals} refused with 39")
sys.exit(bool(failures))
