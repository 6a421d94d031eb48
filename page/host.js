// The host of the module: hands it words and bytes, and takes bytes and a status. It decides nothing; each answer is `pat`'s own.
// page/shim.c has the other half.

class Exit extends Error {
  constructor(status) { super(`status ${status}`); this.status = status; }
}

/** What a call that broke off is called, by what the engine threw. */
function nameOfFault(fault) {
  const isDeep = fault instanceof RangeError && /call stack|recursion/i.test(fault.message);
  if (isDeep) return 'the browser\'s stack is too small for this text';
  if (fault instanceof WebAssembly.RuntimeError) return `a check failed in the module: ${fault.message}`;
  return `the module stopped: ${fault.message}`;
}

/** The four functions that the module imports, and what was written by them. `memory` gives the module's memory once it is there. */
function imports(words, input, memory) {
  const written = [], encoder = new TextEncoder();
  let read = 0;
  const put = (address, most, bytes) => {
    const count = Math.min(Number(most), bytes.length);
    new Uint8Array(memory(), Number(address), count).set(bytes.subarray(0, count));
    return count;
  };
  const env = {
    host_read(address, most) {
      const count = put(address, most, input.subarray(read));
      read += count;
      return BigInt(count);
    },
    host_write(_stream, address, count) {
      written.push(new Uint8Array(memory(), Number(address), Number(count)).slice());
      return count;
    },
    host_exit(status) { throw new Exit(status); },
    host_arg(number, address, most) {
      const word = words[Number(number)];
      return word === undefined ? -1n : BigInt(put(address, most, encoder.encode(word)));
    },
  };
  return { env, written };
}

function joined(parts) {
  const bytes = new Uint8Array(parts.reduce((sum, part) => sum + part.length, 0));
  let at = 0;
  for (const part of parts) { bytes.set(part, at); at += part.length; }
  return bytes;
}

/** Calls the module's start. A browser that can gives it a stack of its own, which is larger than a worker's. */
const begin = start => typeof WebAssembly.promising === 'function' ? WebAssembly.promising(start)() : start();

/**
 * A caller for a compiled module: `call(words, bytes)` gives the promise of {status, bytes, text}. Each call has an instance of its
 * own, so memory begins anew. A call that breaks off throws an error that names why.
 */
export function hostedPat(module) {
  return async (words, input) => {
    let instance = null;
    const { env, written } = imports(['pat', ...words], input, () => instance.exports.memory.buffer);
    let status = 0;
    try {
      instance = new WebAssembly.Instance(module, { env });
      status = await begin(instance.exports.start);
    } catch (fault) {
      if (!(fault instanceof Exit)) throw new Error(nameOfFault(fault), { cause: fault });
      ({ status } = fault);
    }
    const bytes = joined(written);
    return { status, bytes, text: new TextDecoder('utf-8', { ignoreBOM: true }).decode(bytes) };
  };
}

/** Whether this browser has WebAssembly with 64-bit memories: an empty module with such a memory is well formed. */
export function hasMemory64() {
  const empty = [0, 0x61, 0x73, 0x6d, 1, 0, 0, 0], memory = [5, 3, 1, 4, 0];
  return typeof WebAssembly === 'object' && WebAssembly.validate(new Uint8Array([...empty, ...memory]));
}
