'use strict';
// node --test test.js
const assert = require('node:assert');
const test = require('node:test');
const { Schema, SchemaError, version } = require('./index.js');

const SDL = 'type Query { greeting(name: String!): String }';
const unknown = (name) => `Unknown field "${name}" on type "Query"`;

test('errors', () => {
  const schema = new Schema(SDL);
  assert.deepStrictEqual(schema.validate('{ greeting(name: "Ada") }'), []);
  const wanted = [{ message: unknown('nam'), locations: [{ line: 1, column: 3 }] }];
  assert.deepStrictEqual(schema.validate('{ nam }'), wanted);
  assert.deepStrictEqual(schema.validate(Buffer.from('{ nam }')), wanted);
});

test('syntax errors', () => {
  const schema = new Schema(SDL);
  assert.deepStrictEqual(schema.validate('{ greeting(')[0].locations, [{ line: 1, column: 12 }]);
  const bytes = Buffer.concat([Buffer.from('{ a }\n# '), Buffer.of(0xff)]);
  assert.deepStrictEqual(schema.validate(bytes)[0].locations, [{ line: 2, column: 3 }]);
  assert.strictEqual(schema.validate('').length, 1);
});

test('texts of all lengths', () => {
  const schema = new Schema(SDL);
  // Comments round 1,024 bytes, for which there is room on the stack, of characters of one to four bytes.
  for (const character of ['a', 'é', '\u2028', '😀', '\ud800']) {
    const bytes = Buffer.byteLength(character);
    for (let size = 1008; size < 1040; size++) {
      const text = `${'#'.repeat(size % bytes)}#${character.repeat(size / bytes)}\n{ nam }`;
      const wanted = [{ message: unknown('nam'), locations: [{ line: 2, column: 3 }] }];
      assert.deepStrictEqual(schema.validate(text), wanted);
    }
  }
});

test('texts are strings or buffers', () => {
  const schema = new Schema(SDL);
  for (const text of [5, null, undefined, {}, ['{ a }']])
    assert.throws(() => schema.validate(text), /string or a buffer/);
  assert.throws(() => schema.validate('{ a }', { maxErrors: '1' }), /number of errors/);
});

test('messages', () => {
  const key = `${String.fromCharCode(...Array(32).keys())}"\\/é\u2028😀\x7f`;
  const schema = new Schema('type Query { find(by: Filter): Int } input Filter { name: Int }');
  const errors = schema.validateVariables('query($by: Filter) { find(by: $by) }', { by: { [key]: 1 } });
  const message = `Variable "$by" got invalid value. In field "${key}": Unknown field.`;
  assert.deepStrictEqual(errors, [{ message, locations: [{ line: 1, column: 7 }] }]);
});

test('locations', () => {
  const query = 'query A { greeting(name: "Ada") }';
  const errors = new Schema(SDL).validate(`${query}\n  ${query}`);
  const locations = [{ line: 1, column: 1 }, { line: 2, column: 3 }];
  assert.deepStrictEqual(errors, [{ message: 'There can only be one operation named A', locations }]);
});

test('options and variables', () => {
  const schema = new Schema(SDL);
  const asked = '{ __schema { queryType { name } } }';
  assert.deepStrictEqual(schema.validate(asked), []);
  assert.strictEqual(schema.validate(asked, { introspection: false }).length, 1);
  const counts = [0, 1, 2, 3, 4].map((maxErrors) => schema.validate('{ a b c }', { maxErrors }).length);
  assert.deepStrictEqual(counts, [3, 1, 2, 3, 3]);
  const query = 'query($name: String!) { greeting(name: $name) }';
  assert.deepStrictEqual(schema.validateVariables(query, { name: 'Ada' }), []);
  assert.strictEqual(schema.validateVariables(query, {}).length, 1);
  assert.strictEqual(schema.validateVariables(query, '[]').length, 1);
});

test('schemas', () => {
  assert.throws(
    () => new Schema(['type Query { a: Int }', 'type A { b: B }']),
    (error) => error instanceof SchemaError && error.errors[0].path === '1',
  );
  assert.throws(() => new Schema(''), SchemaError);
  assert.deepStrictEqual(new Schema(['type Query { a: A }', 'type A { b: Int }']).validate('{ a { b } }'), []);
});

test('dialects', () => {
  const count = (dialect) => new Schema('type Query { a: Int } type Subscription { a: Int b: Int }', { dialect }).validate('subscription { a b }').length;
  assert.deepStrictEqual([count('october2021'), count('juniper')], [1, 0]);
  assert.throws(() => new Schema(SDL, { dialect: 'other' }), TypeError);
});

test('long reports', () => {
  const names = Array.from({ length: 1000 }, (_, number) => `field${number}`);
  const errors = new Schema(SDL).validate(`{ ${names.join(' ')} }`);
  assert.deepStrictEqual(errors.map((error) => error.message), names.map(unknown));
});

test('closed', () => {
  const schema = new Schema(SDL);
  schema.close();
  schema.close();
  assert.throws(() => schema.validate('{ a }'), /closed/);
});

test('version', () => assert.match(version(), /^\d+\.\d+\.\d+$/));
