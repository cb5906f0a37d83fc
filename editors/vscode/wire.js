// Messages of the Language Server Protocol over a pair of streams.
"use strict";

class Wire {
  constructor(out, take) {
    this.out = out;
    this.take = take;
    this.rest = Buffer.alloc(0);
    this.next = 1;
    this.asked = new Map();
    this.closed = false;
  }

  send(message) {
    if (this.closed) return;
    const body = Buffer.from(JSON.stringify({ jsonrpc: "2.0", ...message }));
    this.out.write(`Content-Length: ${body.length}\r\n\r\n`);
    this.out.write(body);
  }

  notify(method, params) {
    this.send({ method, params });
  }

  answer(id, result) {
    this.send({ id, result });
  }

  // Asks, and answers by a promise; a question that is cancelled is told to the server.
  request(method, params, cancel) {
    const id = this.next++;
    return new Promise((resolve, reject) => {
      if (this.closed) {
        reject(new Error("the language server has ended"));
        return;
      }
      this.asked.set(id, { resolve, reject });
      this.send({ id, method, params });
      if (cancel) cancel.onCancellationRequested(() => this.notify("$/cancelRequest", { id }));
    });
  }

  // Takes bytes, and each whole message in them.
  read(data) {
    this.rest = Buffer.concat([this.rest, data]);
    for (;;) {
      const head = this.rest.indexOf("\r\n\r\n");
      if (head < 0) return;
      const found = /content-length:\s*(\d+)/i.exec(this.rest.toString("latin1", 0, head));
      const start = head + 4;
      const end = start + (found ? Number(found[1]) : 0);
      if (this.rest.length < end) return;
      const body = this.rest.toString("utf8", start, end);
      this.rest = this.rest.subarray(end);
      if (found) this.message(JSON.parse(body));
    }
  }

  message(message) {
    const asked = message.method === undefined ? this.asked.get(message.id) : undefined;
    if (!asked) {
      if (message.method !== undefined) this.take(message);
      return;
    }
    this.asked.delete(message.id);
    if (message.error) asked.reject(new Error(message.error.message));
    else asked.resolve(message.result);
  }

  // No more comes: what was asked fails.
  close() {
    this.closed = true;
    for (const { reject } of this.asked.values()) reject(new Error("the language server has ended"));
    this.asked.clear();
  }
}

module.exports = { Wire };
