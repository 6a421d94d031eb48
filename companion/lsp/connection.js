// Messages of JSON-RPC over two streams, each behind a header with its length. Bad ones are answered, and the next one is read.

export const PARSE_ERROR = -32700, INVALID_REQUEST = -32600, UNKNOWN_METHOD = -32601, INVALID_PARAMS = -32602, INTERNAL_ERROR = -32603,
  NOT_INITIALIZED = -32002, REQUEST_FAILED = -32803;
const MOST = 64 * 1024 * 1024, HEADER_MOST = 8192;    // bytes of a message, and of a header

/** An answer that says what is wrong. */
export class Failure extends Error {
  constructor(code, message) { super(message); this.code = code; }
}

export class Connection {
  /** `receive(message)` gets each request and notification; `end` is called where the input ends, or can't be read on. */
  constructor(input, output, receive, end) {
    Object.assign(this, { output, receive, end, kept: Buffer.alloc(0), length: null });
    input.on('data', chunk => this.read(chunk));
    input.on('end', () => this.end());
  }
  send(message) {
    const body = Buffer.from(JSON.stringify({ jsonrpc: '2.0', ...message }));
    this.output.write(`Content-Length: ${body.length}\r\n\r\n`);
    this.output.write(body);
  }
  notify(method, params) { this.send({ method, params }); }
  fail(id, { code, message }) { this.send({ id, error: { code, message } }); }

  read(chunk) {
    this.kept = this.kept.length ? Buffer.concat([this.kept, chunk]) : chunk;
    for (;;) {
      if (this.length === null && !this.readHeader()) return;
      if (this.kept.length < this.length) return;
      const body = this.kept.subarray(0, this.length);
      this.kept = this.kept.subarray(this.length); this.length = null;
      this.readBody(body);
    }
  }
  /** Whether a header is there; a block without a length is answered and passed over. */
  readHeader() {
    for (;;) {
      const end = this.kept.indexOf('\r\n\r\n');
      if (end < 0 && this.kept.length <= HEADER_MOST) return false;
      const found = end < 0 ? null : /^content-length: *(\d+) *$/im.exec(this.kept.subarray(0, end).toString('latin1'));
      const length = found ? Number(found[1]) : null;
      if (end < 0 || length > MOST) {
        this.fail(null, { code: PARSE_ERROR, message: end < 0 ? 'a header without an end' : `a message of more than ${MOST} bytes` });
        this.kept = Buffer.alloc(0); this.end();
        return false;
      }
      this.kept = this.kept.subarray(end + 4); this.length = length;
      if (length !== null) return true;
      this.fail(null, { code: PARSE_ERROR, message: 'a header without Content-Length' });
    }
  }
  readBody(body) {
    const message = parsed(body);
    if (message === undefined) this.fail(null, { code: PARSE_ERROR, message: 'this is no JSON' });
    else if (typeof message?.method === 'string') this.receive(message);
    else if (!isAnswer(message)) this.fail(message?.id ?? null, { code: INVALID_REQUEST, message: 'this is no request' });
  }
}
function parsed(body) {
  try { return JSON.parse(body.toString('utf8')); } catch { return undefined; }
}
const isAnswer = message => message !== null && typeof message === 'object' && message.method === undefined && message.id !== undefined
  && ('result' in message || 'error' in message);
