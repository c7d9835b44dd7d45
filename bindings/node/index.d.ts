/** A place of a text. Line and column count from 1, the column in characters. */
export interface Location {
  line: number;
  column: number;
}

/** What is wrong, and where. `path` is the number of the text for faults of a schema. */
export interface Fault {
  message: string;
  locations: Location[];
  path?: string;
}

export interface Options {
  /** Whether fields `__schema` and `__type` are allowed; true if left out. */
  introspection?: boolean;
  /**
   * How many errors of a document are reported at most, or 0 for all; 1,000 if left out. One with a long message counts
   * as several: one, and one more for each 4,096 bytes of its message.
   */
  maxErrors?: number;
}

export interface SchemaOptions {
  /** By which rules documents are judged: those of the specification of October 2021, if left out, or juniper's. */
  dialect?: 'october2021' | 'juniper';
}

export class SchemaError extends Error {
  readonly errors: Fault[];
}

export class Schema {
  constructor(texts: string | Buffer | (string | Buffer)[], options?: SchemaOptions);
  validate(query: string | Buffer, options?: Options): Fault[];
  validateVariables(query: string | Buffer, values: object | string, options?: Options): Fault[];
  close(): void;
}

export function version(): string;
