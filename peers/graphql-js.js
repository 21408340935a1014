// The demo over graphql-js: node graphql-js.js FILE.. prints for each file the microseconds of processor time (user and system) that one
// request takes, read, validated, executed and written as JSON; with --parse in front, those of reading it alone. node graphql-js.js
// --serve PORT answers requests over HTTP, and --serve PORT --prepared keeps each document that it has validated.
"use strict";
const fs = require("fs");
const http = require("http");
const path = require("path");
const { buildSchema, execute, parse, validate } = require("graphql");

const schema = buildSchema(fs.readFileSync(path.join(__dirname, "demo.graphql"), "utf8"));
const secret = () => { throw new Error("secret is secret"); };
const cell = (n) => ({ __typename: "Cell", a: () => 10 + n, b: () => 20 + n });
const appearsIn = () => ["NEWHOPE", "EMPIRE", "JEDI"];
const droid = { __typename: "Droid", id: () => "2001", name: () => "R2-D2", appearsIn, friends: () => [human, null], secret,
  primaryFunction: () => "Astromech" };
const human = { __typename: "Human", id: () => "1000", name: () => "Luke Skywalker", appearsIn, friends: () => [droid], secret,
  height: () => 172 };
const root = {
  id: () => "q1",
  name: () => "demo",
  number: ({ plus }) => (plus === null ? null : plus + 41),
  nothing: () => null,
  fail: () => { throw new Error("failed"); },
  odd: () => [1],
  hero: ({ episode }) => (episode === "EMPIRE" ? human : droid),
  mustHero: () => droid,
  ids: () => [1, null],
  grid: () => [[cell(0)], [cell(1)]],
  holes: () => [[cell(0), null]],
};

function answer(text) {
  const document = parse(text);
  const errors = validate(schema, document);
  return JSON.stringify(errors.length > 0 ? { errors } : execute({ schema, document, rootValue: root }));
}

function microseconds(task, text) {
  const times = text.length < 800 ? 4000 : 200;
  for (let i = 0; i < times; i += 1) task(text);
  const before = process.cpuUsage();
  for (let i = 0; i < times; i += 1) task(text);
  const spent = process.cpuUsage(before);
  return (spent.user + spent.system) / times;
}

function response({ query, variables, operationName }, kept) {
  let document = kept && kept.get(query);
  if (!document) {
    document = parse(query);
    const errors = validate(schema, document);
    if (errors.length > 0) return JSON.stringify({ errors });
    if (kept) kept.set(query, document);
  }
  return JSON.stringify(execute({ schema, document, rootValue: root, variableValues: variables, operationName }));
}

function serve(port, kept) {
  http.createServer((request, reply) => {
    const parts = [];
    request.on("data", (part) => parts.push(part));
    request.on("end", () => {
      reply.setHeader("content-type", "application/json");
      reply.end(response(JSON.parse(Buffer.concat(parts).toString()), kept));
    });
  }).listen(port, "127.0.0.1");
}

const words = process.argv.slice(2);
if (words[0] === "--serve") {
  serve(Number(words[1]), words[2] === "--prepared" ? new Map() : null);
} else {
  const task = words[0] === "--parse" ? parse : answer;
  for (const file of words.filter((word) => word !== "--parse")) {
    console.log(`${path.basename(file)} ${microseconds(task, fs.readFileSync(file, "utf8")).toFixed(1)}`);
  }
}
