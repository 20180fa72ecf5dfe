// Messages of the Language Server Protocol to and from a process, on its standard streams.
"use strict";
const { spawn } = require("child_process");

const HEAD_END = Buffer.from("\r\n\r\n");

class Connection {
  // `answers` has a function for each request that the server makes, and `notices` for each notice. `ended` is called when the process ends by itself.
  constructor(program, folder, { answers, notices, ended }) {
    this.answers = answers;
    this.notices = notices;
    this.left = Buffer.alloc(0);
    this.waiting = new Map();
    this.number = 0;
    this.isOver = false;
    this.process = spawn(program, ["lsp"], { cwd: folder, stdio: ["pipe", "pipe", "ignore"] });
    this.process.stdout.on("data", (data) => this.take(data));
    this.process.stdin.on("error", () => {});
    const over = (why) => {
      if (this.isOver) return;
      this.isOver = true;
      for (const { reject } of this.waiting.values()) reject(new Error("the server has ended"));
      this.waiting.clear();
      ended(why);
    };
    this.process.on("error", (error) => over(error.message));
    this.process.on("exit", (code, signal) => over(signal || `status ${code}`));
  }

  send(message) {
    if (this.isOver) return;
    const body = Buffer.from(JSON.stringify({ jsonrpc: "2.0", ...message }), "utf8");
    this.process.stdin.write(Buffer.concat([Buffer.from(`Content-Length: ${body.length}\r\n\r\n`), body]));
  }

  notify(method, params) {
    this.send({ method, params });
  }

  // The result of a request. Where `token` is cancelled the server is told so.
  request(method, params, token) {
    if (this.isOver) return Promise.reject(new Error("the server has ended"));
    const id = ++this.number;
    return new Promise((resolve, reject) => {
      const listener = token && token.onCancellationRequested(() => this.notify("$/cancelRequest", { id }));
      const settled = (settle) => (value) => {
        if (listener) listener.dispose();
        settle(value);
      };
      this.waiting.set(id, { resolve: settled(resolve), reject: settled(reject) });
      this.send({ id, method, params });
    });
  }

  // Bytes that came: as many messages as are whole are taken.
  take(data) {
    this.left = Buffer.concat([this.left, data]);
    for (;;) {
      const at = this.left.indexOf(HEAD_END);
      if (at < 0) return;
      const length = /content-length: *(\d+)/i.exec(this.left.subarray(0, at).toString("ascii"));
      const start = at + HEAD_END.length;
      const end = start + (length ? Number(length[1]) : 0);
      if (this.left.length < end) return;
      const body = this.left.subarray(start, end).toString("utf8");
      this.left = this.left.subarray(end);
      if (length) this.message(JSON.parse(body));
    }
  }

  message(message) {
    if (message.method && message.id !== undefined) {
      const answer = this.answers[message.method];
      this.send({ id: message.id, result: answer ? answer(message.params) : null });
    } else if (message.method) {
      const notice = this.notices[message.method];
      if (notice) notice(message.params);
    } else if (this.waiting.has(message.id)) {
      const { resolve, reject } = this.waiting.get(message.id);
      this.waiting.delete(message.id);
      if (message.error) reject(Object.assign(new Error(message.error.message), { code: message.error.code }));
      else resolve(message.result);
    }
  }

  // Ends the server as the protocol wants it, and by its process where it doesn't answer.
  async stop() {
    if (this.isOver) return;
    const timer = setTimeout(() => this.process.kill(), 2000);
    timer.unref();
    try {
      await this.request("shutdown", null);
      this.notify("exit", null);
    } catch (_) {
      this.process.kill();
    }
    this.process.once("exit", () => clearTimeout(timer));
    this.isOver = true;
  }
}

module.exports = { Connection };
