// node same_code.cjs BEFORE AFTER..: prints the name of each pair of scripts whose code differs but for comments.

const { readFileSync } = require("node:fs");
const typescript = require("typescript");

const printer = typescript.createPrinter({ removeComments: true });
const codeOf = (file) => printer.printFile(typescript.createSourceFile("script.js", readFileSync(file, "utf8"), typescript.ScriptTarget.ES2022));

const files = process.argv.slice(2);
for (let k = 0; k < files.length; k += 2) if (codeOf(files[k]) !== codeOf(files[k + 1])) console.log(files[k + 1]);
