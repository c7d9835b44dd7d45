'use strict';
// many.js COUNT [FORM]: validates so many documents, all of one form if it is given, and prints how many errors they have.
const { Schema } = require('./index.js');

const FORMS = [
  (i) => `query q${i}($name: String!) { greeting(name: $name) }`,
  (i) => `{ greeting(nam: "${i}") { length } }`,
  (i) => `{ field${i} }`,
  (i) => `{ greeting${i}(`,
];

const [count, form] = process.argv.slice(2).map(Number);
const forms = form === undefined ? FORMS : [FORMS[form]];
const schema = new Schema('type Query { greeting(name: String!): String }');
let errors = 0;
for (let i = 0; i < count; i++) errors += schema.validate(forms[i % forms.length](i)).length;
schema.close();
console.log(errors);
