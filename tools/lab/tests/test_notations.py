"""Documents from one notation to another: vectors, round trips by chance, and pymongo as a peer where it is installed."""
from __future__ import annotations

import os
import random
import unittest
from typing import Any, Callable, Dict, List

from support import LabTest

from lab.bson_bytes import read_documents
from lab.errors import LabError
from lab.foreign import ForeignFault, read_own, read_whole
from lab.notation import fault_of
from lab.program import play
from lab.values import NOTATIONS, Binary, Date, Int, ObjectId, Timestamp, Value, canonical, milliseconds_of, mongosh, own, relaxed

try:
    import bson
    from bson import json_util
except ImportError:
    bson = json_util = None

#: So many documents are made by chance.
TRIPS = int(os.environ.get("LAB_ROUND_TRIPS", "500"))

LETTERS = "ab\"\\\n\r\t\x01\x7fé☃\U0001f600'`$. /"


def text_by_chance(dice: random.Random) -> str:
    """A short text with all that is odd in one."""
    return "".join(dice.choice(LETTERS) for _ in range(dice.randint(0, 6)))


def value_by_chance(dice: random.Random, level: int = 0) -> Value:
    """A value of one of the eleven kinds."""
    makers: List[Callable[[], Value]] = [
        lambda: Int(dice.choice([0, -1, dice.randint(-(2**31), 2**31 - 1)]), False), lambda: Int(dice.randint(-(2**63), 2**63 - 1), True),
        lambda: Int(dice.randint(-5, 5), True), lambda: text_by_chance(dice), lambda: dice.choice([True, False, None]),
        lambda: Date(dice.choice([0, 1, -1, 10**12, 1577934245123, dice.randint(-(2**40), 2**45)])),
        lambda: Binary(dice.choice([0, 0, 4, 5, 128, 255]), dice.randbytes(dice.randint(0, 9))),
        lambda: ObjectId(dice.randbytes(12).hex()), lambda: Timestamp(dice.randrange(2**32), dice.randrange(2**32)),
    ]
    if level < 3 and dice.random() < 0.3:
        if dice.random() < 0.5:
            return [value_by_chance(dice, level + 1) for _ in range(dice.randint(0, 3))]
        return document_by_chance(dice, level + 1)
    return dice.choice(makers)()


def document_by_chance(dice: random.Random, level: int = 0) -> Dict[str, Any]:
    """A document whose names are no wrapper's."""
    names = [dice.choice(["a", "b1", "_id", "x y", "é", "", "a.b", "0", text_by_chance(dice)]) for _ in range(dice.randint(0, 4))]
    return {name: value_by_chance(dice, level) for name in names if not name.startswith("$")}


def widened(value: Value) -> Value:
    """A value as relaxed JSON keeps it: an integer has the fewest bits."""
    if isinstance(value, dict):
        return {name: widened(one) for name, one in value.items()}
    if isinstance(value, list):
        return [widened(one) for one in value]
    return Int(value.number, not -(2**31) <= value.number < 2**31) if isinstance(value, Int) else value


class Vectors(unittest.TestCase):
    """Texts and what they are."""

    def test_each_form(self) -> None:
        cases = [
            ("ObjectId('0123456789ABCDEF01234567')", 'Id("0123456789abcdef01234567")'),
            ('{"$oid": "0123456789abcdef01234567"}', 'Id("0123456789abcdef01234567")'),
            ('ISODate("2020-01-02T03:04:05Z")', "Date(1577934245000)"),
            ('{"$date": "2020-01-02T03:04:05.678Z"}', "Date(1577934245678)"),
            ('{"$date": {"$numberLong": "-1"}}', "Date(-1)"), ("new Date(5)", "Date(5)"),
            ('Date("1970-01-01")', "Date(0)"),
            ('ISODate("1969-12-31T23:00:00-0100")', "Date(0)"), ("NumberLong(5)", "5L"), ('NumberLong("5")', "5L"),
            ('Long("5")', "5L"), ("5L", "5L"),
            ('{"$numberLong": "5"}', "5L"), ('{"$numberInt": "5"}', "5"), ("NumberInt(5)", "5"), ("0x10", "16"),
            ("2147483648", "2147483648L"),
            ("-9223372036854775808", "-9223372036854775808L"), ("BinData(0, 'AAEC')", 'Bin(0, "000102")'),
            ('HexData(5, "00FF")', 'Bin(5, "00ff")'),
            ('{"$binary": {"base64": "AAE=", "subType": "80"}}', 'Bin(128, "0001")'),
            ('{"$binary": "AAE=", "$type": "00"}', 'Bin(0, "0001")'),
            ("UUID('00112233-4455-6677-8899-aabbccddeeff')", 'Bin(4, "00112233445566778899aabbccddeeff")'),
            ('{"$uuid": "00112233-4455-6677-8899-aabbccddeeff"}', 'Bin(4, "00112233445566778899aabbccddeeff")'),
            ("Timestamp(1, 2)", "Time(1, 2)"), ("Timestamp({t: 1, i: 2})", "Time(1, 2)"),
            ('{"$timestamp": {"t": 1, "i": 2}}', "Time(1, 2)"),
            ("'it\\'s'", '"it\'s"'), ('"\\ud83d\\ude00"', '"😀"'), ('"a\\/b\\b"', '"a/b\\u0008"'),
            ("{a: 1, 'b c': [true, null,],}", '{a: 1, "b c": [true, null]}'),
            ('{"$set": {"a": 1}}', "{$set: {a: 1}}"), ("{}", "{}"), ("[]", "[]"),
        ]
        for text, wanted in cases:
            with self.subTest(text):
                self.assertEqual(own(read_whole(text)), wanted)

    def test_what_no_script_has(self) -> None:
        cases = [
            ("{a: 1.5}", 4, 'the string "1.5"'), ("{a: 5.0}", 4, "write 5 in place of 5.0"),
            ("{a: 1e3}", 4, "write 1000 in place"), ("[1, 3e9]", 4, "write 3000000000L"),
            ('{"a": {"$numberDouble": "0.1"}}', 6, 'the string "0.1"'),
            ('{"a": {"$numberDouble": "NaN"}}', 6, "no doubles"), ("{a: NaN}", 4, "a double"),
            ("{a: NumberDecimal('1')}", 4, "a decimal"), ('{a: {"$numberDecimal": "1"}}', 4, "a decimal"),
            ("{a: /x/i}", 4, "regular"), ("{a: undefined}", 4, "null"),
            ("{a: 1, a: 2}", 7, "twice"), ("{a: ObjectId('00')}", 4, "no value of ObjectId"),
            ("{a: hello}", 4, "string stands in quotes"), ("{a: 'x}", 4, "isn't closed"),
            ("{a: 1", 5, "ends too soon"), ("{a: 1} x", 7, "after the value"),
            ("{a: 99999999999999999999}", 4, "64 bits"), ('{a: "\\ud83d"}', 5, "surrogates"),
            ("[" * 101, 100, "level 101"), ('{a: {"$date": "soon"}}', 4, "$date"),
            ("{a: Timestamp(1)}", 4, "no value"), ("{: 1}", 1, "a name"),
        ]
        for text, place, told in cases:
            with self.subTest(text):
                with self.assertRaises(ForeignFault) as caught:
                    read_whole(text)
                self.assertEqual(caught.exception.place, place, caught.exception.told)
                self.assertIn(told, caught.exception.told)

    def test_bson(self) -> None:
        # A document of bsonspec.org, and one with a value of each of the other kinds that scripts have.
        hello = b"\x16\x00\x00\x00\x02hello\x00\x06\x00\x00\x00world\x00\x00"
        self.assertEqual(list(read_documents(hello * 2, "x")), [{"hello": "world"}] * 2)
        body = (b"\x10i\x00\x05\x00\x00\x00" b"\x12l\x00\xff\xff\xff\xff\xff\xff\xff\xff" b"\x09d\x00\x05\x00\x00\x00\x00\x00\x00\x00" b"\x08b\x00\x01" b"\x0an\x00"
                b"\x07o\x00" + bytes(range(12)) + b"\x05x\x00\x02\x00\x00\x00\x80\x01\x02" b"\x11t\x00\x02\x00\x00\x00\x01\x00\x00\x00"
                b"\x04a\x00\x0c\x00\x00\x00\x100\x00\x07\x00\x00\x00\x00" b"\x03e\x00\x05\x00\x00\x00\x00")
        (found,) = read_documents((len(body) + 5).to_bytes(4, "little") + body + b"\0", "x")
        wanted = '{i: 5, l: -1L, d: Date(5), b: true, n: null, o: Id("000102030405060708090a0b"), x: Bin(128, "0102"), t: Time(1, 2)'
        self.assertEqual(own(found), wanted + ", a: [7], e: {}}")
        double = b"\x10\x00\x00\x00\x01d\x00\x00\x00\x00\x00\x00\x00\xf8\x3f\x00"
        for content, why in [(double, 'field d stands a double; there are no doubles: .*"1.5"'), (hello[:-3], "none"), (b"\x05\x00", "cut off")]:
            with self.assertRaisesRegex(LabError, why):
                list(read_documents(content, "x"))


class RoundTrips(unittest.TestCase):
    """Documents by chance."""

    def test_each_notation(self) -> None:
        dice = random.Random(8)
        for _ in range(TRIPS):
            value = document_by_chance(dice)
            text = own(value)
            self.assertIsNone(fault_of(text, 0), text)
            self.assertEqual(read_own(text), value, text)
            self.assertEqual(read_whole(canonical(value)), value, text)
            self.assertEqual(read_whole(mongosh(value)), value, text)
            self.assertEqual(read_whole(relaxed(value)), widened(value), text)

    def test_the_program_prints_the_same(self) -> None:
        dice = random.Random(9)
        values = [{"_id": Int(number, False), "v": value_by_chance(dice)} for number in range(300)]
        lines = ["set 1", "campaign n0", "drain n0", *(f"insert n0 t {own(value)}" for value in values), "dump n0 local"]
        self.assertEqual([text.split(" ", 1)[1] for text in play(lines).replies[-1].more], [own(value) for value in values])

    @unittest.skipIf(bson is None, "pymongo's json_util isn't installed")
    def test_as_pymongo_has_them(self) -> None:
        dice = random.Random(10)
        for _ in range(TRIPS):
            value = document_by_chance(dice)
            theirs = json_util.loads(canonical(value), json_options=json_util.JSONOptions(
                json_mode=json_util.JSONMode.CANONICAL, datetime_representation=json_util.DatetimeRepresentation.NUMBERLONG, tz_aware=True,
                uuid_representation=bson.binary.UuidRepresentation.UNSPECIFIED,
            )) if in_years(value) else None
            if theirs is None:
                continue
            for options in (json_util.CANONICAL_JSON_OPTIONS, json_util.RELAXED_JSON_OPTIONS):
                back = read_whole(json_util.dumps(theirs, json_options=options))
                kept = value if options is json_util.CANONICAL_JSON_OPTIONS else widened(value)
                self.assertEqual(back, kept, canonical(value))
            if all("\0" not in name for name in value):
                self.assertEqual(list(read_documents(bson.BSON.encode(theirs), "x")), [value])


def in_years(value: Value) -> bool:
    """Whether each date has a year that Python has."""
    if isinstance(value, Date):
        return -(10**12) < value.milliseconds < 10**13
    items = value.values() if isinstance(value, dict) else value if isinstance(value, list) else []
    return all(map(in_years, items))


class Convert(LabTest):
    """`lab convert`, and documents that are typed."""

    def test_both_ways(self) -> None:
        text = '{_id: Id("0123456789abcdef01234567"), at: Date(5), n: 5L}\n'
        for name in NOTATIONS:
            there = self.told("convert", "--to", name, typed=text)
            self.assertEqual(self.told("convert", typed=there), text if name != "relaxed" else text.replace("5L", "5"))

    def test_mongoexports_lines_and_arrays_become_inserts(self) -> None:
        lines = '{"_id":{"$oid":"0123456789abcdef01234567"},"n":1}\n{"_id":2,"at":{"$date":"1970-01-01T00:00:00.005Z"}}\n'
        wanted = 'insert n0 t {_id: Id("0123456789abcdef01234567"), n: 1}\ninsert n0 t {_id: 2, at: Date(5)}\n'
        self.assertEqual(self.told("convert", "--insert", "n0", "t", typed=lines), wanted)
        self.assertEqual(self.told("convert", "--insert", "n0", "t", typed="[" + lines.replace("}\n{", "},\n{") + "]"), wanted)
        (self.room / "t.bson").write_bytes(b"\x0e\x00\x00\x00\x10_id\x00\x07\x00\x00\x00\x00" * 2)
        self.assertEqual(self.told("convert", "t.bson", "--insert", "n0", "t"), "insert n0 t {_id: 7}\n" * 2)

    def test_what_is_wrong_is_told_with_its_place(self) -> None:
        for typed, told in [("{a: 1}\n{b: 1.5}", "line 2, column 5: there are no doubles"), ("{a: 1", "line 1, column 6: the text ends too soon")]:
            done = self.lab("convert", typed=typed)
            self.assertEqual(done.returncode, 3)
            self.assertIn(told, done.stderr)
        self.assertEqual(self.lab("convert", "--insert", "0", "t", typed="{}").returncode, 2)
        self.assertEqual(self.lab("convert", "--from", "own", typed="{a: 'x'}").returncode, 3)

    def test_what_is_typed_in_a_script(self) -> None:
        lines = ["set 1", "elect n0", "insert n0 t {_id: ObjectId('0123456789abcdef01234567'), n: NumberLong(5)}",
                 "replace n0 t ObjectId('0123456789abcdef01234567') {s: 'it\\'s'}", "begin n0 w1 insert t {_id: 'a'}",
                 'insert n0 t {_id: 1, a: {"$date": "1970-01-01"}}', "notation mongosh",
                 'insert n0 t {_id: 2, a: {"$date": "1970-01-01"}}',
                 "repeat 2 read n0 local t ObjectId('0123456789abcdef01234567')", "notation own", 'insert n0 t {_id: 3, a: {"$date": 1}}']
        plain = [line for line in self.told("expand", self.file(lines)).splitlines() if not line.startswith("#")]
        self.assertEqual(plain[3:], [
            'insert n0 t {_id: Id("0123456789abcdef01234567"), n: 5L}',
            'replace n0 t Id("0123456789abcdef01234567") {s: "it\'s"}',
            'begin n0 w1 insert t {_id: "a"}', 'insert n0 t {_id: 1, a: {"$date": "1970-01-01"}}',
            "insert n0 t {_id: 2, a: Date(0)}",
            *['read n0 local t Id("0123456789abcdef01234567")'] * 2, 'insert n0 t {_id: 3, a: {"$date": 1}}',
        ])
        self.assertEqual(self.lab("run", self.file(lines)).stderr.count("extended JSON is read as a plain document"), 2)
        self.assertIn("found {_id: \"a\"}", self.told("shell", "--nodes", "1", typed="elect n0\ninsert n0 t {_id: 'a'}\nread n0 local t 'a'\n"))
        done = self.lab("run", self.file(["set 1", "insert n0 t {_id: 'a', n: 2.5}"]))
        self.assertEqual((done.returncode, done.stderr[:45]), (3, "lab: line 2: column 27: there are no doubles:"))

    def test_dates(self) -> None:
        self.assertEqual(milliseconds_of("2000-02-29T23:59:59.9+01:00"), 951865199900)
        for text in ("2001-02-29", "soon", "2000-01-01T25:00:00Z"):
            with self.assertRaises(ValueError):
                milliseconds_of(text)


if __name__ == "__main__":
    unittest.main()
