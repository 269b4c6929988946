// A program over the installed package.

import { Refused, Session, amountText } from "fact-graph";

const session = await Session.open(`{"version":"1","facts":[
  {"path":"/rent","writable":"Dollar"},
  {"path":"/yearly","derived":"Dollar","is":["Multiply",["Dependency","/rent"],["Int","12"]]}]}`);
session.set("/rent", 80050n);
const value = session.final("/yearly");
if (typeof value !== "bigint" || amountText(value) !== "9606.00") throw new Error(`${value} cents`);
try {
  session.set("/yearly", 1n);
  throw new Error("a derived fact was set");
} catch (wrong) {
  if (!(wrong instanceof Refused) || wrong.number !== 5) throw wrong;
}
