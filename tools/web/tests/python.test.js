// What Python brings, as the lab's translated modules use it. What is expected was printed by Python.
import assert from "node:assert/strict";
import { test } from "node:test";
import * as py from "../page/python/python.js";

const { json, methods, re } = py;

test("numbers are of any size, and exact ones come back as such", () => {
  assert.equal(py.mul(6364136223846793005n, 3), 19092408671540379015n);
  assert.equal(py.and(py.mul(2 ** 40, 2 ** 40), py.sub(py.pow(2, 64), 1)), 0);
  assert.equal(py.add(py.pow(2, 64), 1), 18446744073709551617n);
  assert.equal(py.sub(py.pow(2, 64), py.pow(2, 64)), 0);
  assert.equal(py.or(py.shl(5, 32), 7), 21474836487);
  assert.equal(py.mod(-7, 3), 2);
  assert.equal(py.floordiv(-7, 2), -4);
  assert.equal(py.int("9007199254740993"), 9007199254740993n);
  assert.equal(py.int("٣_1"), 31);
  assert.throws(() => py.int("0x1f"), py.ValueError);
  assert.equal(py.int("0x1f", 16), 31);
});

test("formats are Python's", () => {
  assert.equal(py.format(2.5, ".0f"), "2");
  assert.equal(py.format(3.5, ".0f"), "4");
  assert.equal(py.format(0.25, ".1f"), "0.2");
  assert.equal(py.format(7, ">4"), "   7");
  assert.equal(py.format("é", "3"), "é  ");
  assert.equal(py.format("😀", "3"), "😀  ");
  assert.equal(py.format(9007199254740993n, "016x"), "0020000000000001");
  assert.equal(py.str(null) + py.str(true) + py.str(1e-7), "NoneTrue1e-07");
  assert.equal(py.repr("it's\n"), '"it\'s\\n"');
});

test("texts are counted in code points", () => {
  assert.equal(py.len("a😀b"), 3);
  assert.equal(py.slice("a😀b", 1, 2), "😀");
  assert.equal(py.get("a😀b", -1), "b");
  assert.equal(re.search("b", "a😀b").start(), 2);
  assert.equal(re.compile("b").match("a😀b", 2).end(), 3);
});

test("bytes that are no UTF-8 come back as they were", () => {
  const raw = Uint8Array.from([0x61, 0xff, 0xf0, 0x9f, 0x98, 0x80, 0xed, 0xa0, 0x80, 0xc3]);
  const text = methods.decode(raw, "utf-8", "surrogateescape");
  assert.equal(text, "a\udcff😀\udced\udca0\udc80\udcc3");
  assert.deepEqual(methods.encode(text, "utf-8", "surrogateescape"), raw);
});

test("patterns mean what they mean in Python", () => {
  assert.equal(re.match(String.raw`\w+`, "é1_-").group(), "é1_");
  assert.equal(re.fullmatch("a$", "a\n"), null);
  assert.equal(re.match("a$", "a\n").group(), "a");
  assert.equal(re.match(".+", "a\rb\nc").group(), "a\rb");
  assert.deepEqual(re.split(String.raw`^(?=##+ )`, "x\n## a\n### b", { flags: re.MULTILINE }), ["x\n", "## a\n", "### b"]);
  assert.equal(re.sub(String.raw`\[([^\]]*)\]\([^)]*\)`, String.raw`\1`, "[a](b) c"), "a c");
  assert.equal(re.match("[0-9a-f]{32}$", "0".repeat(32)).group().length, 32);
  assert.equal(re.fullmatch("(?s)[^-].*", "a\nb").group(), "a\nb");
  assert.deepEqual(re.compile("a+").findall("aab a"), ["aa", "a"]);
  assert.deepEqual(re.compile("a(b?)").findall("ab a"), ["b", ""]);
  assert.deepEqual(re.compile("(a)(b)?").findall("ab a"), [["a", "b"], ["a", ""]]);
});

test("texts have Python's methods", () => {
  assert.deepEqual(methods.split("  a \x1c b "), ["a", "b"]);
  assert.deepEqual(methods.split("a b c", " ", 1), ["a", "b c"]);
  assert.deepEqual(methods.rsplit("a b c", " ", 1), ["a b", "c"]);
  assert.equal(methods.strip("\ufeffa "), "\ufeffa");
  assert.equal(methods.replace("aaa", "a", "$&"), "$&$&$&");
  assert.equal(methods.isdecimal("²"), false);
});

test("equal keys are one, and order is Python's", () => {
  const held = py.dict([[[1, 2], "a"], ["1", "b"], [1, "c"]]);
  assert.equal(held.get([1, 2]) + held.get("1") + held.get(1), "abc");
  assert.equal(py.len(py.set([[1], [1], "1"])), 2);
  assert.ok(py.lt([1, 0, 9], [1, 1]) && py.lt([1], [1, 0]) && !py.lt([2], [1, 9]));
  assert.deepEqual(py.sorted(["b", "B", "a"], { key: (one) => methods.lower(one), reverse: true }), ["b", "B", "a"]);
  assert.throws(() => py.get(py.dict(), "x"), py.KeyError);
  assert.throws(() => py.unpack([1], 2), py.ValueError);
});

test("what an object hasn't is Python's fault", () => {
  assert.throws(() => py.bound("text", "number"), py.AttributeError);
  assert.throws(() => py.attribute(true, "number"), py.AttributeError);
  assert.ok(py.caught(new TypeError("native"), py.ValueError, py.AttributeError) && !py.caught(new RangeError(), py.AttributeError));
});

test("json tells where it is wrong, as Python's does", () => {
  const wrong = { "{": ["Expecting property name enclosed in double quotes", 1], "[1,]": ["Expecting value", 3], '{"a" 1}': ["Expecting ':' delimiter", 5],
    '"a': ["Unterminated string starting at", 0], "1 2": ["Extra data", 2], '"\n"': ["Invalid control character at", 1], "": ["Expecting value", 0] };
  for (const [text, [msg, pos]] of Object.entries(wrong)) {
    assert.throws(() => json.loads(text), (fault) => fault.msg === msg && fault.pos === pos, text);
  }
  assert.equal(json.dumps(json.loads('{"a": [1, 1.0, "é😀", null]}')), '{"a": [1, 1.0, "\\u00e9\\ud83d\\ude00", null]}');
});

test("near words are difflib's", () => {
  assert.deepEqual(py.difflib.get_close_matches("inser", ["insert", "set", "sinser", "x"], 3), ["sinser", "insert"]);
  assert.deepEqual(py.difflib.get_close_matches("priorty", ["_id", "arbiterOnly", "priority", "votes"], 1), ["priority"]);
});
