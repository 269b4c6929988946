// Cases as they come from standard input, and their outcomes as they go to standard output.

import { bytesOf, caseOf, sizeOf } from "./run_case.js";

/** The cases of a stream, one behind another. */
export async function* casesFrom(stream) {
  let pieces = [], size = 0;
  const joined = () => (pieces.length > 1 ? Buffer.concat(pieces) : pieces[0]);
  for await (const piece of stream) {
    pieces.push(piece);
    size += piece.length;
    for (;;) {
      if (size < 16) break;
      if (pieces[0].length < 16) pieces = [joined()];
      const wanted = sizeOf(pieces[0]);
      if (size < wanted) break;
      const all = joined();
      pieces = [all.subarray(wanted)];
      size -= wanted;
      yield caseOf(all.subarray(0, wanted));
    }
  }
}

/** Writes the outcome of a case. */
export async function written(run) {
  if (!process.stdout.write(bytesOf(run))) await new Promise((done) => process.stdout.once("drain", done));
}
