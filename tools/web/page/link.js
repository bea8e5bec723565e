// A script and a place in it as the fragment of a link, compressed. No server is ever sent a fragment.

const MOST_BYTES = 8_388_608;

async function through(stream, raw) {
  const parts = [], reader = new Blob([raw]).stream().pipeThrough(stream).getReader();
  let size = 0;
  for (;;) {
    const { done, value } = await reader.read();
    if (done) break;
    size += value.length;
    if (size > MOST_BYTES) throw new RangeError("The script of this link has more than 8,388,608 bytes");
    parts.push(value);
  }
  return new Uint8Array(await new Blob(parts).arrayBuffer());
}

function spelled(raw) {
  let text = "";
  for (let place = 0; place < raw.length; place += 0x8000) text += String.fromCharCode(...raw.subarray(place, place + 0x8000));
  return btoa(text).replaceAll("+", "-").replaceAll("/", "_").replace(/=+$/, "");
}

const read = (text) => Uint8Array.from(atob(text.replaceAll("-", "+").replaceAll("_", "/")), (sign) => sign.charCodeAt(0));

/** The fragment of a script and the line that is chosen in it. */
export async function fragmentOf(text, line) {
  const packed = await through(new CompressionStream("deflate-raw"), new TextEncoder().encode(text));
  return `#script=${spelled(packed)}&line=${line}`;
}

async function unpacked(script) {
  try {
    return await through(new DecompressionStream("deflate-raw"), read(script));
  } catch (fault) {
    throw fault instanceof RangeError ? fault : new Error("The script of this link can't be read. Was the link cut short?");
  }
}

/** The script and the line of a fragment; null of one that has none. */
export async function readFragment(fragment) {
  const said = new URLSearchParams(fragment.replace(/^#/, "")), script = said.get("script");
  if (script === null) return null;
  const raw = await unpacked(script);
  return { text: new TextDecoder().decode(raw), line: Number(said.get("line")) || null };
}
