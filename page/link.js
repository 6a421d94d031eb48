// A program in an address: deflated, in base64 for addresses, behind `#p=`.

const FRAGMENT = /^#p=([\w-]+)$/;
// A program may have 1,048,576 bytes; what unpacks to more than this isn't one.
const MOST_BYTES = 2 << 20;
// Browsers and those who pass addresses on cut longer ones.
export const MOST_CHARACTERS = 30_000;

/** All bytes of a stream; null where there are more than may be. */
async function collect(stream, most) {
  const parts = [], reader = stream.getReader();
  for (let size = 0; ;) {
    const { done, value } = await reader.read();
    if (done) return new Uint8Array(await new Blob(parts).arrayBuffer());
    size += value.length;
    if (size > most) { await reader.cancel(); return null; }
    parts.push(value);
  }
}
const through = (bytes, transform) => new Blob([bytes]).stream().pipeThrough(transform);

const bytesOf = base64 => Uint8Array.from(atob(base64), one => one.charCodeAt(0));
export const unzip = (base64, most) => collect(through(bytesOf(base64), new DecompressionStream('gzip')), most);

export async function pack(text) {
  const bytes = await collect(through(new TextEncoder().encode(text), new CompressionStream('deflate-raw')), Infinity);
  const letters = Array.from(bytes, one => String.fromCharCode(one)).join('');
  return '#p=' + btoa(letters).replace(/\+/g, '-').replace(/\//g, '_').replace(/=+$/, '');
}
/** The program of an address's fragment; null where it holds none. */
export async function unpack(fragment) {
  const found = FRAGMENT.exec(fragment);
  if (!found) return null;
  try {
    const packed = bytesOf(found[1].replace(/-/g, '+').replace(/_/g, '/'));
    const bytes = await collect(through(packed, new DecompressionStream('deflate-raw')), MOST_BYTES);
    return bytes && new TextDecoder('utf-8', { ignoreBOM: true }).decode(bytes);
  } catch { return null; }
}
