'use strict';
// GraphQL validation, proved. index.d.ts has the types.
const addon = require('./out/vorxindak.node');

const NO_INTROSPECTION = 1;
const MAX_ERRORS = 1000;
const DIALECTS = { october2021: 0, juniper: 2 };

/** Texts are no schema. `errors` has their faults. */
class SchemaError extends Error {
  constructor(errors) {
    super(errors.map((error) => error.message).join('; '));
    this.name = 'SchemaError';
    this.errors = errors;
  }
}

function bytes(text) {
  return typeof text === 'string' ? Buffer.from(text, 'utf8') : text;
}

function joined(texts) {
  return Buffer.concat(texts.flatMap((text, index) => (index ? [Buffer.of(0), bytes(text)] : [bytes(text)])));
}

function errorsOf(report) {
  return report === undefined ? [] : JSON.parse(report);
}

/** A schema. Each worker thread has its own. */
class Schema {
  #handle = addon.create();

  /** Type definitions, the JSON result of an introspection query, or a list of texts of both. */
  constructor(texts, { dialect = 'october2021' } = {}) {
    const flags = DIALECTS[dialect];
    if (flags === undefined) throw new TypeError(`no dialect: ${dialect}`);
    const faults = addon.open(this.#handle, joined([texts].flat()), flags);
    if (faults !== undefined) throw new SchemaError(JSON.parse(faults));
  }

  /** The errors of a document, in ascending order; none if and only if it is valid. */
  validate(query, { introspection = true, maxErrors = MAX_ERRORS } = {}) {
    const flags = introspection ? 0 : NO_INTROSPECTION;
    return errorsOf(addon.validate(this.#handle, query, maxErrors, flags));
  }

  /** The errors of a document, or if it has none those of the values of its variables. */
  validateVariables(query, values, { introspection = true, maxErrors = MAX_ERRORS } = {}) {
    const given = typeof values === 'string' ? values : JSON.stringify(values);
    const flags = introspection ? 0 : NO_INTROSPECTION;
    return errorsOf(addon.validateVariables(this.#handle, query, given, maxErrors, flags));
  }

  /** Lets go of the schema. Further calls throw. */
  close() {
    addon.close(this.#handle);
  }
}

function version() {
  const number = addon.version();
  return [Math.floor(number / 1e6), Math.floor(number / 1e3) % 1e3, number % 1e3].join('.');
}

module.exports = { Schema, SchemaError, version };
