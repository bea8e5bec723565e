// Links: what goes into one comes out of it, and none opens without bound.
import assert from "node:assert/strict";
import { test } from "node:test";
import { fragmentOf, readFragment } from "../page/link.js";

test("a script and its line come back", async () => {
  for (const text of ["", "set 3\nelect n0", "é😀\r\n\0", "x".repeat(100_000)])
    assert.deepEqual(await readFragment(await fragmentOf(text, 7)), { text, line: 7 });
});

test("another fragment has no script", async () => {
  assert.equal(await readFragment(""), null);
  assert.equal(await readFragment("#keys"), null);
});

test("what is no script of a link is refused", async () => {
  for (const fragment of ["#script=%%%", "#script=AAAA", (await fragmentOf("set 3\nelect n0", 1)).replace(/.{4}&/, "&")])
    await assert.rejects(readFragment(fragment), /can't be read/);
  await assert.rejects(readFragment(await fragmentOf("x".repeat(8_388_609), 1)), RangeError);
});
