"""Tests of xmf.py against the samples and against what the command xmf prints: python3 -m unittest, in this folder.

Without XMF_LIBRARY the checkout's library is used, which tools/build.sh so makes first if it is not current.
"""

import array
import os
import pathlib
import struct
import subprocess
import sys
import tempfile
import threading
import unittest

HERE = pathlib.Path(__file__).resolve().parent
ROOT = HERE.parent
sys.path.insert(0, str(HERE))

import xmf  # noqa: E402

SAMPLES = {path.stem: path.read_bytes() for path in sorted((ROOT / "samples").glob("*.xmf"))}
WORKED = SAMPLES["worked"]


def setUpModule():
    if "XMF_LIBRARY" not in os.environ:
        subprocess.run([ROOT / "tools/build.sh", "so"], check=True)


def command(*words):
    """What xmf answers: status, standard output, standard error."""
    done = subprocess.run([ROOT / "xmf", *map(str, words)], stdin=subprocess.DEVNULL, capture_output=True)
    return done.returncode, done.stdout, done.stderr


def sample(name):
    return ROOT / f"samples/{name}.xmf"


def line(*fields):
    return "\t".join(map(str, fields)) + "\n"


def told(question, *arguments):
    """What a question gives, or the line of its refusal."""
    try:
        return question(*arguments)
    except xmf.Refusal as refusal:
        return line("R", refusal.number, refusal.place)


class Answers(unittest.TestCase):
    """Each answer is that of the command."""

    def test_sheet(self):
        for name, data in SAMPLES.items():
            with self.subTest(name):
                self.assertEqual(told(xmf.sheet, data).encode(), command("sheet", sample(name))[1])

    def test_editions(self):
        for name, data in SAMPLES.items():
            with self.subTest(name):
                first = told(xmf.sheet, data)
                if first.startswith("XMF"):
                    second = xmf.sheet(data, 2)
                    self.assertTrue(second.startswith("XMF2\t"))
                    self.assertEqual(xmf.other_edition(first), second)
                    self.assertEqual(xmf.other_edition(second), first)
        with self.assertRaises(ValueError):
            xmf.sheet(WORKED, 3)
        with self.assertRaises(xmf.Refusal) as caught:
            xmf.other_edition("XMF\n")
        self.assertEqual((caught.exception.number, caught.exception.place), (31, 1))

    def test_verdict(self):
        for name, data in SAMPLES.items():
            with self.subTest(name):
                answer = told(xmf.verdict, data)
                if isinstance(answer, xmf.Verdict):
                    self.assertEqual(bool(answer), answer.check == 0)
                    answer = line("V", answer.check)
                self.assertEqual(answer.encode(), command("verdict", sample(name))[1])

    def test_rows(self):
        for name, data in SAMPLES.items():
            with self.subTest(name):
                file = told(xmf.read, data)
                if isinstance(file, xmf.File):
                    file = "".join([*map(self.node, file.nodes), *(self.item(data, item) for item in file.items)])
                self.assertEqual(file.encode(), command("rows", sample(name))[1])

    @staticmethod
    def node(n):
        parent = n.row if n.parent is None else n.parent
        words = [n.row, n.start, n.length, n.header_length, n.contained, parent, n.depth, n.reference, n.target, n.extent]
        return line("n", *words, n.unpackers, n.unpacker_count, n.items, int(n.detached))

    @staticmethod
    def item(data, i):
        kind, of, length = (0, i.field, 0) if isinstance(i.field, int) else (1, None, len(i.field))
        if kind == 1:
            # the name's place: it is found by its bytes before the data
            of = data.rindex(i.field, 0, i.place)
        return line("i", i.row, i.node, i.number, kind, of, length, i.version, i.type, i.format, i.place, len(i.data))

    def test_find(self):
        fields = [("S", 3), ("S", 8), ("S", 9), ("C", "a"), ("C", "key"), ("C", "")]
        for name in ("worked", "folders", "detached", "unicode", "cut"):
            for row in (0, 1, 2, 5, 9):
                for kind, of in fields:
                    for own in (False, True):
                        with self.subTest(name, row=row, field=of, own=own):
                            item = told(xmf.find, SAMPLES[name], row, of, own)
                            words = ["find", *(["--own"] if own else []), sample(name), row, kind, of]
                            got = command(*words)[1].decode().split("\n")[0] + "\n"
                            if isinstance(item, xmf.Item):
                                item = "I" + self.item(SAMPLES[name], item)[1:]
                            self.assertEqual(item, got)

    def test_resolve_and_resource(self):
        for name, data in SAMPLES.items():
            for row in range(8):
                with self.subTest(name, row=row):
                    resource = told(xmf.resolve, data, row)
                    status, got, said = command("extract", sample(name), row, "-o", "-")
                    if isinstance(resource, xmf.Resource):
                        self.assertEqual(xmf.resource(data, row), got)
                        self.assertEqual(got, data[resource.place : resource.place + resource.length])
                        resource = line("P", resource.place, resource.length, resource.row, resource.references)
                    else:
                        self.assertEqual((status, got, said.decode()), (2, b"", resource))
                        self.assertEqual(told(xmf.resource, data, row), resource)
                    self.assertEqual(resource.encode(), command("resolve", sample(name), row)[1])

    def test_needs(self):
        for name, data in SAMPLES.items():
            with self.subTest(name):
                counts = told(xmf.needs, data)
                if isinstance(counts, list):
                    counts = "".join(line("C", n.item_row, n.channel, n.resource, n.count) for n in counts)
                self.assertEqual(counts.encode(), command("needs", sample(name))[1])
        self.assertEqual(xmf.need(SAMPLES["mobile"], 1, 0, 0), 4)
        for row in range(3):
            counts = told(xmf.needs, SAMPLES["mobile"], row)
            if isinstance(counts, list):
                counts = "".join(line("C", n.item_row, n.channel, n.resource, n.count) for n in counts)
            self.assertEqual(counts.encode(), command("needs", sample("mobile"), row)[1])

    def test_retitle(self):
        for name, row, title in [
            ("worked", 0, "Hello"),
            ("worked", 0, ""),
            ("worked", 0, "x" * 300),
            ("worked", 1, "hidden"),
            ("worked", 3, "no such row"),
            ("unicode", 2, "Fähre 𝄞"),
            ("detached", 0, "refers elsewhere"),
            ("cut", 0, "refused"),
        ]:
            with self.subTest(name, row=row, title=title):
                new = told(xmf.retitle, SAMPLES[name], row, title)
                status, got, said = command("title", sample(name), row, title, "-o", "-")
                if isinstance(new, bytes):
                    self.assertEqual((status, new), (0, got))
                    self.assertEqual(xmf.retitle(new, row, title), new)
                else:
                    self.assertEqual((status, said.decode()), (2, new))
        new = xmf.retitle(WORKED, 2, b"\x01\x02")
        self.assertEqual(new, command("title", sample("worked"), 2, "--bytes", "0102", "-o", "-")[1])
        self.assertEqual(xmf.read(new).items[2].data, b"\x01\x02")
        with self.assertRaises(ValueError):
            xmf.retitle(WORKED, 2, "text for bytes")

    def test_texts(self):
        for text in ("", "Hi", "Færge 𝄞", "\ufeff\ufeffA", "x" * 5000):
            with self.subTest(text):
                data = xmf.to_utf16(text)
                self.assertEqual(data, text.encode("utf-16-be"))
                self.assertEqual(xmf.to_utf8(data), text.removeprefix("\ufeff"))
        for question, data, name in [
            (xmf.to_utf8, b"\0A\xd8\0", "to-utf8"),
            (xmf.to_utf8, b"\0A\0", "to-utf8"),
            (xmf.to_utf16, b"ab\xff", "to-utf16"),
            (xmf.to_utf16, "a\ud800", "to-utf16"),
        ]:
            given = data if isinstance(data, bytes) else data.encode("utf-8", "surrogatepass")
            with tempfile.NamedTemporaryFile() as file:
                file.write(given)
                file.flush()
                self.assertEqual(told(question, data).encode(), command(name, file.name)[2])


    def test_shelf(self):
        """Calls on a shelf and on the command's shelf file, whose words have the high byte first."""
        shelf = xmf.Shelf()
        sheets = [xmf.sheet(WORKED), xmf.sheet(SAMPLES["folders"], 2), "", "x" * 65536, "x" * 65537]
        with tempfile.TemporaryDirectory() as folder:
            file = pathlib.Path(folder) / "shelf"
            self.assertEqual(command("shelf", "-s", file, "new")[0], 0)
            for number in range(60):
                label = (number % 7, number % 5, number % 11)
                sheet = sheets[number % len(sheets)]
                with self.subTest(number=number):
                    (pathlib.Path(folder) / "sheet").write_text(sheet, encoding="utf-8")
                    answers = told(shelf.put, *label, sheet), told(shelf.get, *label)
                    got = [command("shelf", "-s", file, "put", *label, pathlib.Path(folder) / "sheet"), command("shelf", "-s", file, "get", *label)]
                    if number % 3 == 0:
                        answers += (told(shelf.drop, *label),)
                        got.append(command("shelf", "-s", file, "drop", *label))
                    for answer, (status, out, said) in zip(answers, got, strict=True):
                        self.assertEqual((answer or "").encode(), out if status == 0 else said)
            cards = struct.pack(f">{len(shelf.cards)}Q", *shelf.cards)
            self.assertEqual(cards + shelf.text, file.read_bytes())


class Others(unittest.TestCase):
    def test_mend(self):
        mended = xmf.mend(SAMPLES["mendable"])
        self.assertEqual((mended.data, mended.lines), (WORKED, line("FileLength", 16, 57, 56) + line("TreeEnd", 20, 60, 55)))
        self.assertEqual(mended.changes, (xmf.Change("FileLength", 16, 57, 56), xmf.Change("TreeEnd", 20, 60, 55)))
        self.assertNotIn("data", repr(mended))
        for name, data in SAMPLES.items():
            with self.subTest(name):
                file, mended = told(xmf.read, data), told(xmf.mend, data)
                if isinstance(file, xmf.File):
                    self.assertEqual(mended, xmf.Mended(data, ""))
                    wrong = bytearray(data)
                    # FileLength, a number: after XMF_, the version, and in version 2.00 type and revision
                    wrong[16 if file.version == 200 else 8] ^= 1
                    self.assertEqual(xmf.mend(wrong).data, data)
                    self.assertEqual([change.field for change in xmf.mend(wrong).changes], ["FileLength"])
                elif name != "mendable":
                    self.assertEqual(mended, file)
        self.assertEqual(told(xmf.mend, WORKED[:-1]), line("R", 5, 16))
        self.assertEqual(told(xmf.mend, b""), line("R", 1, 0))

    def test_shelf_of_given_words(self):
        shelf = xmf.Shelf(array.array("Q", [0] * 8), bytearray(16 * 8))
        shelf.put(1, 4711, 12, b"XMF\xff2.00")
        shelf.put(2, 4711, 12, "æ")
        self.assertEqual(list(shelf.cards), [1, 4711, 12, 8, 2, 4711, 12, 2])
        self.assertEqual(shelf.get(1, 4711, 12), "XMF\udcff2.00")
        again = xmf.Shelf(shelf.cards[:], shelf.text[:])
        shelf.drop(1, 4711, 12)
        self.assertEqual(told(shelf.get, 1, 4711, 12), line("R", 27, 0))
        self.assertEqual((again.get(1, 4711, 12), again.get(2, 4711, 12)), ("XMF\udcff2.00", "æ"))
        for label, sheet, number in [((3, 1, 1), "", 28), ((3, 0, 1), "", 27), ((2, 4711, 12), "", 29), ((3, 1, 1), "123456789", 30)]:
            self.assertEqual(told(again.put, *label, sheet), line("R", number, 0))
        again.cards[3] = 9
        self.assertEqual(told(again.drop, 1, 4711, 12), line("R", 39, 0))
        none = xmf.Shelf(array.array("Q"), bytearray())
        self.assertEqual([told(none.put, 1, 1, 1, ""), told(none.get, 1, 1, 1)], [line("R", 28, 0), line("R", 27, 0)])
        for desk in (-1, 2**64):
            with self.assertRaises(ValueError):
                shelf.put(desk, 1, 1, "")
        with self.assertRaises(ValueError):
            xmf.Shelf(array.array("I", [0] * 64))
        shelf.text.append(0)

    def test_shelf_of_threads(self):
        shelf, wrong = xmf.Shelf(), []

        def work(desk):
            for call in range(1, 100):
                shelf.put(desk, call, 0, f"{desk} {call}")
                wrong.extend([call] * (shelf.get(desk, call, 0) != f"{desk} {call}"))
                shelf.drop(desk, call, 0)

        threads = [threading.Thread(target=work, args=(desk,)) for desk in range(8)]
        for thread in threads:
            thread.start()
        for thread in threads:
            thread.join()
        self.assertEqual((wrong, any(shelf.cards), any(shelf.text)), ([], False, False))

    def test_rows_have_names(self):
        file = xmf.read(WORKED)
        self.assertEqual((file.version, len(file.nodes), len(file.items)), (200, 2, 3))
        self.assertEqual([item.data for item in file.items_of(1) if not item.hidden], [b"Hi", b"\0\0"])
        self.assertEqual(file.items[0].field, b"a")
        self.assertEqual(file.items[2].field, xmf.RESOURCE_FORMAT)
        self.assertIsNone(file.nodes[0].parent)
        self.assertEqual(xmf.find(WORKED, 1, b"t").hidden, True)

    def test_hidden_data_is_not_printed(self):
        hidden = next(item for item in xmf.read(WORKED).items if item.hidden)
        self.assertNotIn(repr(hidden.data), repr(xmf.read(WORKED)))
        self.assertNotIn("data", repr(hidden))

    def test_refusals(self):
        with self.assertRaises(xmf.Refusal) as caught:
            xmf.read(SAMPLES["cut"])
        refusal = caught.exception
        meaning = "the length in the header is not the number of bytes received"
        self.assertEqual((refusal.number, refusal.place, refusal.meaning, refusal.name), (5, 16, meaning, "wrongLength"))
        self.assertEqual(str(refusal), f"refusal 5 at 16: {meaning}")
        rows = [text.split("\t") for text in (ROOT / "share/refusals.tsv").read_text(encoding="utf-8").splitlines() if text[0] != "#"]
        self.assertEqual(xmf.REFUSALS, {int(number): (name, text) for number, name, text, _ in rows})
        rows = [text.split("\t") for text in (ROOT / "share/checks.tsv").read_text(encoding="utf-8").splitlines() if text[0] != "#"]
        self.assertEqual(xmf.CHECKS, tuple(text for _, text in rows))
        self.assertEqual(xmf.__version__, (ROOT / "share/version").read_text(encoding="utf-8").strip())
        fields = [text.split("\t")[0] for text in (ROOT / "share/fields.tsv").read_text(encoding="utf-8").splitlines() if text[0] != "#"]
        self.assertEqual(int(fields[-1]), xmf.ID3)

    def test_account(self):
        totals = xmf.Totals()
        for data in SAMPLES.values():
            kinds = told(xmf.account, data, totals)
            if isinstance(kinds, xmf.Kinds):
                self.assertEqual(sum(vars(kinds).values()), len(data))
        refused = sum(not isinstance(told(xmf.read, data), xmf.File) for data in SAMPLES.values())
        self.assertEqual((totals.files, totals.refused), (len(SAMPLES), refused))
        self.assertEqual(xmf.account(WORKED).inline, 2)
        totals.files = 1000
        with self.assertRaises(xmf.Refusal) as caught:
            xmf.account(WORKED, totals)
        self.assertEqual((caught.exception.number, totals.files), (32, 1000))

    def test_frames(self):
        tag = b"ID3\x04\0\0\0\0\0\x19TIT2\0\0\0\x02\0\0HiTPE1\0\0\0\x03\0\0abc"
        self.assertEqual([(f.name, f.place, f.data) for f in xmf.frames(tag)], [(b"TIT2", 20, b"Hi"), (b"TPE1", 32, b"abc")])
        self.assertEqual(told(xmf.frames, b"ID3"), line("R", 33, 0))

    def test_odd_arguments(self):
        self.assertEqual(told(xmf.resolve, WORKED, 2**64 - 1), line("R", 18, 0))
        for row in (-1, 2**64):
            with self.assertRaises(ValueError):
                xmf.resolve(WORKED, row)
        for data in (bytearray(WORKED), memoryview(WORKED)):
            self.assertEqual(xmf.read(data), xmf.read(WORKED))
        self.assertEqual(told(xmf.read, b""), line("R", 1, 0))
        with self.assertRaises(TypeError):
            xmf.read("text")

    def test_threads(self):
        wrong = []

        def ask(data, wanted):
            wrong.extend(1 for _ in range(50) if told(xmf.sheet, data) != wanted)

        threads = [threading.Thread(target=ask, args=(data, told(xmf.sheet, data))) for data in SAMPLES.values()]
        for thread in threads:
            thread.start()
        for thread in threads:
            thread.join()
        self.assertEqual(wrong, [])

    def test_the_library_is_found(self):
        code = "import sys; sys.path.insert(0, sys.argv[1]); import xmf; print(xmf._path())"

        def path(folder, **variables):
            environment = {name: value for name, value in os.environ.items() if name != "XMF_LIBRARY"}
            done = subprocess.run([sys.executable, "-B", "-c", code, folder], capture_output=True, text=True, check=True, env={**environment, **variables})
            return done.stdout.strip()

        self.assertEqual(path(str(HERE)), str(ROOT / "target/lib/libxmf.so.0"))
        self.assertEqual(path(str(HERE), XMF_LIBRARY="/there/libxmf.so.0"), "/there/libxmf.so.0")
        with tempfile.TemporaryDirectory() as folder:
            prefix = pathlib.Path(folder).resolve()
            for place, wanted in [("share/xmf/python", str(prefix / "lib/libxmf.so.0")), ("elsewhere", "libxmf.so.0")]:
                (prefix / place).mkdir(parents=True)
                (prefix / place / "xmf.py").write_bytes((HERE / "xmf.py").read_bytes())
                self.assertEqual(path(str(prefix / place)), wanted)


if __name__ == "__main__":
    unittest.main()
