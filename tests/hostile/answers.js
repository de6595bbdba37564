// Answers for check.js: each line of standard input is a list of {deck: PATH, text: BASE64}, and its answer the list of what check.js says.
//
//     node tests/hostile/answers.js CHECK.JS
"use strict";

const fs = require("fs");
const path = require("path");
const readline = require("readline");
const PertCheck = require(path.resolve(process.argv[2]));

readline.createInterface({ input: process.stdin }).on("line", (line) => {
    const answers = JSON.parse(line).map(({ deck, text }) => PertCheck.check(fs.readFileSync(deck), Buffer.from(text, "base64")));
    process.stdout.write(`${JSON.stringify(answers)}\n`);
});
