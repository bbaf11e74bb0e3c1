// Says of each line of a file of JSON, [KIND, TEXT], what graphql-js makes of the text at Float: as a literal, as JSON in variables, or as a number in a reply.
// Of what it takes it writes the 64 bits of the double, of other texts `refused`.
//
//     node floats.js FILE
const fs = require("fs");
const graphql = require(process.env.GRAPHQL_JS || "/usr/share/nodejs/graphql");

const schema = graphql.buildSchema("type Query { a(x: Float): Float }");
const float = graphql.GraphQLFloat;

function bits(number) {
  const view = new DataView(new ArrayBuffer(8));
  view.setFloat64(0, number);
  return view.getBigUint64(0).toString(16);
}

function literal(text) {
  const document = graphql.parse("{ a(x: " + text + ") }");
  if (graphql.validate(schema, document).length) throw new Error("invalid");
  const fields = document.definitions[0].selectionSet.selections;
  if (fields.length !== 1 || fields[0].arguments.length !== 1) throw new Error("more than a value");
  return graphql.valueFromAST(fields[0].arguments[0].value, float);
}

function variable(text) {
  return graphql.coerceInputValue(JSON.parse(text), float);
}

function reply(text) {
  return float.serialize(JSON.parse(text));
}

const ways = { literal, variable, reply };
for (const line of fs.readFileSync(process.argv[2], "utf8").split("\n")) {
  if (!line) continue;
  const [kind, text] = JSON.parse(line);
  let told = "refused";
  try {
    const value = ways[kind](text);
    if (typeof value === "number") told = Number.isFinite(value) ? bits(value) : "infinite";
  } catch (error) {
    told = "refused";
  }
  console.log(told);
}
