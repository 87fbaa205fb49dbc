// What the server tells; tmhost_notebook/book.py writes it.

/**
 * A text, an error, a formula, or a picture: an address that has all of it, which the server has looked at, and the text that stands for it. A heavy
 * picture is drawn when somebody asks for it.
 */
export interface Part { text?: string; error?: string; tex?: string; picture?: string; heavy?: string }

/** An answer; `unset` is how long the longest of its formulas is that are too long to be set, 0 where none is. */
export interface Output { parts: Part[]; isError: boolean; text: string; isCut: boolean; length: number; unset: number }

/** A text that is kept until its cell can have it, and the cell's text that it was typed over. */
export interface Draft { base: string; text: string }

/** What an interpreter has written of an answer that isn't whole yet; cut is its front. */
export interface Partial { text: string; isCut: boolean }

export interface Cell {
  id: number;
  session: string;
  input: string;
  draft: Draft | null;
  state: "empty" | "queued" | "running" | "answered" | "lost" | "doubtful";
  reason: string | null;
  wrote: string | null; // of one that is lost the end of what its interpreter had written beside its blocks
  since: number | null;
  took: number | null; // milliseconds
  count: number | null; // which answer of its interpreter it is
  prompt: string | null;
  output: Output | null;
  isOld: boolean;
}

export interface Session {
  name: string;
  words: string;
  tab: boolean;
  runs: boolean;
  missing: string | null; // the program that its words name, or that its adapter starts, which isn't here
  waiting: number;
  isProse: boolean;
}

/** A step: new cells, then texts, then places, then cells that go. */
export interface Change {
  new: { after: number; session: string | null; text: string; of?: number; then?: Kept }[];
  set: { id: number; base: string; text: string; then?: Kept }[];
  move: { id: number; after: number }[];
  remove: { id: number }[];
}

/** A cell after so many changes, whose answer is to be shown in grey. */
export interface Kept { at: number; id: number }

/** A cell as it was. */
export interface Then {
  id: number;
  session: string;
  isProse: boolean;
  input: string;
  state: "empty" | "answered" | "lost";
  reason: string | null;
  prompt: string | null;
  output: Output | null;
  isThere: boolean; // whether the worksheet has it yet
  after: number; // the cell of today after which it stood, 0 at the front
}

export interface Removed { number: number; session: string; input: string }

export interface Message {
  at: number;
  isWhole?: boolean; // all is reported: what isn't in it isn't there
  server?: string; // another one begins to count changes again
  placed?: [number, number][]; // cells that were put after others, 0 for the first place
  gone?: number[];
  says?: string[];
  cells?: Cell[];
  marks?: Record<string, [boolean, boolean]>;
  partial?: Record<string, Partial | null>; // null where there is no such text any more
  path?: string;
  isOfFolder?: boolean; // whether the server has a list of worksheets
  order?: number[];
  sessions?: Session[];
  removed?: Removed[];
  ended?: string | null;
  isLooking?: boolean; // another program has the worksheet: it is only shown
}

export interface Suggestion { name: string; words: string; tab: boolean }

/** What a call reported: `refused` is the name of a refusal, `says` the same for people. */
export interface Reply {
  refused?: string;
  says?: string;
  warning?: string;
  dropped?: number;
  at?: number;
  isDraft?: boolean;
  id?: number;
  ids?: number[];
  gone?: number[];
  count?: number;
  lost?: number;
  outcome?: string;
  root?: string;
  rest?: string[];
  output?: Output;
  text?: string;
  start?: number;
  length?: number;
  folder?: string;
  sheets?: Sheet[];
  part?: Part;
  opening?: string; // of the worksheet: while it is the same, changes have the same numbers
  changes?: string[];
  versions?: [number, string][];
  then?: Then[];
  name?: string;
}

/** A worksheet in the list of a folder: its size in bytes, when it was changed last, and how many cells wait for answers. */
export interface Sheet {
  name: string;
  changed: number; // milliseconds since 1970
  size: number;
  state: "open" | "ended" | "inUse" | "closed";
  waiting: number;
}

/** An element before it is made: its name, attributes and children. */
export type Tree = string | [string, Record<string, string>, Tree[]];
