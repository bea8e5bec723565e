"""Values between Python and a script."""
from __future__ import annotations

import unittest
from datetime import datetime, timedelta, timezone
from uuid import UUID

import support  # noqa: F401

from replset import bson

MOMENT = datetime(2024, 2, 29, 12, 30, 1, 250000, tzinfo=timezone.utc)

#: Values, and how a script has them.
PAIRS = [
    (5, "5"), (-(2**31), "-2147483648"), (2**31, "2147483648L"), (bson.Int64(5), "5L"), ("a\n\"b\"", '"a\\n\\"b\\""'),
    (True, "true"), (None, "null"), (b"\xca\xfe", 'Bin(0, "cafe")'), (bson.Binary(5, b"\x00"), 'Bin(5, "00")'),
    (MOMENT, "Date(1709209801250)"), (bson.Date(2**60), f"Date({2**60})"), (bson.ObjectId("0123456789abcdef01234567"),
     'Id("0123456789abcdef01234567")'), (bson.Timestamp(5, 1), "Time(5, 1)"), ({"a b": [1, {"c": bson.Int64(2)}]}, '{"a b": [1, {c: 2L}]}'),
]


class Values(unittest.TestCase):
    """Both ways, and what can't be one."""

    def test_both_ways(self) -> None:
        for value, text in PAIRS:
            self.assertEqual(bson.notation(value), text)
            self.assertEqual(bson.parse(text), value)
            self.assertEqual(bson.notation(bson.parse(text)), text)

    def test_what_comes_back_as_another(self) -> None:
        self.assertEqual(bson.notation((1, 2)), "[1, 2]")
        self.assertEqual(bson.notation(bytearray(b"\x01")), 'Bin(0, "01")')
        self.assertEqual(bson.notation(UUID(int=1)), 'Bin(4, "00000000000000000000000000000001")')
        self.assertEqual(bson.notation(datetime(1970, 1, 1)), "Date(0)")
        self.assertEqual(bson.notation(MOMENT.astimezone(timezone(timedelta(hours=2)))), "Date(1709209801250)")
        self.assertEqual(bson.notation(datetime(1969, 12, 31, 23, 59, 59, 999999)), "Date(-1)")

    def test_what_no_document_holds(self) -> None:
        for value, told in ((1.0, "write 1 in place of 1.0"), (0.5, "no doubles"), (2**63, "more than 64 bits"), ({1: 2}, "a name"),
                            ({"a\0": 1}, "a name"), (object(), "can't hold"), ({"a": {1, 2}}, "can't hold")):
            with self.assertRaisesRegex((TypeError, ValueError), told):
                bson.notation(value)

    def test_extended_json(self) -> None:
        value = {"_id": bson.ObjectId("0123456789abcdef01234567"), "n": bson.Int64(5), "at": MOMENT, "raw": b"\x01"}
        for kind in ("canonical", "mongosh"):
            self.assertEqual(bson.loads(bson.dumps(value, kind)), value)
        self.assertEqual(bson.dumps({"n": bson.Int64(5)}), '{"n": 5}')
        with self.assertRaisesRegex(ValueError, "column 5: there are no doubles"):
            bson.loads("{a: 1.5}")
        with self.assertRaises(ValueError):
            bson.dumps(1, "json")


if __name__ == "__main__":
    unittest.main()
