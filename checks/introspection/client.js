// Reads an answer to introspection and the text of its schema, and says where graphql-js finds another schema in the one than in the other.
//
//     node client.js query [schema]      prints the usual introspection query
//     node client.js ANSWER SCHEMA       ends with status 1 where something differs
//
// What isn't compared: the types of the schema of schemas, built-in scalars, and directives that the text doesn't define. graphql-js knows later fields
// there, and it takes no definition of a built-in scalar. Possible types are compared as a set, since the gateway lists them in the order of types,
// and defaults as values, since it prints them with other spaces, and numbers with a fraction as they are written.
const fs = require("fs");
const graphql = require(process.env.GRAPHQL_JS || "/usr/share/nodejs/graphql");

const usual = graphql.getIntrospectionQuery({ descriptions: true, specifiedByUrl: true, directiveIsRepeatable: true, schemaDescription: true });

// A default as a text of its value: numbers with a fraction or an exponent by their doubles.
function written(text) {
  const number = (node) => ({ ...node, value: String(Number(node.value)) });
  return graphql.print(graphql.visit(graphql.parseConstValue(text), { FloatValue: number }));
}

// The same whatever the order of possible types and the spaces of a default.
function alike(value) {
  if (Array.isArray(value)) return value.map(alike);
  if (value === null || typeof value !== "object") return value;
  const found = {};
  for (const [key, it] of Object.entries(value)) {
    if (key === "possibleTypes" && it) found[key] = it.map((type) => type.name).sort();
    else if (key === "defaultValue" && it) found[key] = written(it);
    else found[key] = alike(it);
  }
  return found;
}

function printed(schema, name) {
  const type = schema.getType(name);
  return graphql.isUnionType(type) ? "" : graphql.printType(type);
}

function listed(answer, text) {
  const found = {};
  const own = new Set(graphql.parse(text).definitions.filter((d) => d.name).map((d) => d.kind.startsWith("Directive") ? "@" + d.name.value : d.name.value));
  for (const type of answer.__schema.types) if (own.has(type.name) && !graphql.specifiedScalarTypes.some((it) => it.name === type.name)) found[type.name] = type;
  for (const directive of answer.__schema.directives) if (own.has("@" + directive.name)) found["@" + directive.name] = directive;
  for (const root of ["queryType", "mutationType", "subscriptionType", "description"]) found["/" + root] = answer.__schema[root];
  return found;
}

function main() {
  if (process.argv[2] === "query") return console.log(usual);
  const answer = JSON.parse(fs.readFileSync(process.argv[2], "utf8")).data;
  const text = fs.readFileSync(process.argv[3], "utf8");
  const theirs = graphql.buildSchema(text, { assumeValid: true, assumeValidSDL: true });
  const client = graphql.buildClientSchema(answer);
  const wanted = listed(graphql.graphqlSync({ schema: theirs, source: usual }).data, text);
  const found = listed(answer, text);
  let differ = 0;
  for (const name of new Set([...Object.keys(wanted), ...Object.keys(found)])) {
    if (JSON.stringify(alike(wanted[name])) !== JSON.stringify(alike(found[name]))) {
      differ += 1;
      console.log("differs: " + name + "\n  graphql-js " + JSON.stringify(wanted[name]) + "\n  answer     " + JSON.stringify(found[name]));
    }
    if (name[0] !== "@" && name[0] !== "/") {
      if (printed(client, name) !== printed(theirs, name)) {
        differ += 1;
        console.log("prints otherwise: " + name + "\n" + printed(theirs, name) + "\n" + printed(client, name));
      }
    }
  }
  console.log(differ ? differ + " differ" : Object.keys(found).length + " are the same");
  process.exit(differ ? 1 : 0);
}

main();
