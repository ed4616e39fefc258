// Counts visits of pages. The sidecar beside it calls it by HTTP, so it needs no package.
//
//   node visits.js 9000
//   durkenzo-sidecar --application http://127.0.0.1:9000 --clients 127.0.0.1:7480
//   curl -d '' http://127.0.0.1:7480/key/home
"use strict";
const http = require("node:http");

// The counts of each shard that is here, by page.
const shards = new Map();

// Each handler gets the shard's number, and the headers and the body of the request. It returns a status and a body.
// It may be called again if the sidecar didn't get its answer.
const handlers = {
  prepare_add: () => [200, ""],

  // The shard comes here. What was kept of it before is of no use any more.
  add(shard, headers, body) {
    const counts = headers["durkenzo-came"] === "handed" ? JSON.parse(body) : {};
    shards.set(shard, new Map(Object.entries(counts)));
    return [200, ""];
  },

  // The next owner gets what this returns. The shard stays as it is until it is dropped.
  prepare_drop(shard) {
    const counts = shards.get(shard);
    return counts ? [200, JSON.stringify(Object.fromEntries(counts))] : [421, ""];
  },

  drop(shard) {
    shards.delete(shard);
    return [200, ""];
  },

  // A client's call. One call of a shard comes at a time.
  call(shard, headers) {
    const counts = shards.get(shard);
    if (!counts) {
      return [421, ""]; // This process was begun anew: the sidecar adds the shard, and calls again.
    }
    const page = headers["durkenzo-key"] ?? "";
    const count = (counts.get(page) ?? 0) + 1;
    counts.set(page, count);
    return [200, String(count)];
  },
};

function answer(request, body) {
  const [, first, shard, name] = request.url.split("/");
  const handler = Object.hasOwn(handlers, name ?? "") && first === "shard" ? handlers[name] : undefined;
  return handler ? handler(shard, request.headers, body) : [404, ""];
}

const server = http.createServer((request, response) => {
  const pieces = [];
  request.on("data", (piece) => pieces.push(piece));
  request.on("end", () => {
    try {
      const [status, body] = answer(request, Buffer.concat(pieces).toString());
      response.writeHead(status).end(body);
    } catch (error) {
      response.writeHead(500).end(String(error));
    }
  });
});
server.listen(Number(process.argv[2] ?? 9000), "127.0.0.1");
