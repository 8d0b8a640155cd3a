// What replay.js takes and gives. docs/REPORTS.md says what each field means; one that may be left out may be null, too.

/** How a report is drawn. */
export interface Settings {
  no_graphics?: boolean | null;
  short_message?: boolean | null;
  /** 140 where it is left out. */
  term_width?: number | null;
  unicode?: boolean | null;
  anonymized_snippet?: boolean | null;
  anonymized_origin?: boolean | null;
  hyperlink?: boolean | null;
  show_line_feeds?: boolean | null;
  context_before?: number | null;
  context_after?: number | null;
  wrap?: boolean | null;
  mask_controls?: boolean | null;
  label_lines?: boolean | null;
}

export type AnsiColor =
  | "Black"
  | "Red"
  | "Green"
  | "Yellow"
  | "Blue"
  | "Magenta"
  | "Cyan"
  | "White"
  | "BrightBlack"
  | "BrightRed"
  | "BrightGreen"
  | "BrightYellow"
  | "BrightBlue"
  | "BrightMagenta"
  | "BrightCyan"
  | "BrightWhite";

export type Color = AnsiColor | { ansi256: number } | { rgb: [number, number, number] };

export type Effect = "BOLD" | "DIMMED" | "ITALIC" | "UNDERLINE" | "BLINK" | "INVERT" | "HIDDEN" | "STRIKETHROUGH";

export interface Style {
  fg?: Color | null;
  bg?: Color | null;
  effects?: Effect[] | null;
}

/** A style for each part of a report; what is left out is plain. */
export interface OwnSheet {
  error?: Style | null;
  warning?: Style | null;
  info?: Style | null;
  note?: Style | null;
  help?: Style | null;
  line_num?: Style | null;
  emphasis?: Style | null;
  none?: Style | null;
  context?: Style | null;
  addition?: Style | null;
  removal?: Style | null;
}

export type Sheet = "plain" | "default" | OwnSheet;

export interface Level {
  kind: "error" | "warning" | "info" | "note" | "help";
  /** Shown in place of the kind's name; null: no name at all. */
  name?: string | null;
}

export interface Title {
  level: Level;
  text: string;
  /** False for a later group's, whose text is trusted: it is drawn as it is. */
  primary: boolean;
  id?: string | null;
  url?: string | null;
}

export interface Message {
  level: Level;
  /** Trusted: it is drawn as it is. */
  text: string;
}

export interface Origin {
  path: string;
  line?: number | null;
  /** In characters, from 1. */
  column?: number | null;
}

/** A line of the source and a column, both from 1. */
export interface Place {
  line: number;
  column: number;
}

/** From `start` to before `end`, or from one place to before another. */
export type Span = { start: number; end: number; from?: null; to?: null } | { start?: null; end?: null; from: Place; to: Place };

/** What spans and columns count. Left out, spans count bytes; those of JavaScript's own strings are "utf16". */
export type Unit = "byte" | "char" | "utf16";

export interface Marking {
  kind: "primary" | "context" | "visible";
  label?: string | null;
  highlight_source?: boolean | null;
}

export type Annotation = Span & Marking;

export interface Replacement {
  text: string;
}

export type Patch = Span & Replacement;

export interface Snippet {
  /** The text, or the number of one of the report's `sources`, from 0. */
  source: string | number;
  path?: string | null;
  line_start?: number | null;
  line_numbering?: boolean | null;
  fold?: boolean | null;
  unit?: Unit | null;
}

export interface Cause extends Snippet {
  annotations: Annotation[];
}

export interface Suggestion extends Snippet {
  patches: Patch[];
}

export type Element =
  | { message: Message }
  | { cause: Cause }
  | { suggestion: Suggestion }
  | { origin: Origin }
  | { padding: Record<string, never> };

export type Group = { title: Title; level?: unknown; elements: Element[] } | { title: null; level: Level; elements: Element[] };

/** What a report is drawn with, beside its groups. */
export interface More {
  settings?: Settings | null;
  /** A text is drawn under each; left out, under "plain" alone. */
  sheets?: Sheet[] | null;
  /** The report is drawn as HTML. */
  html?: boolean | null;
  /** The report is drawn as what stands in an article of a page. */
  html_page?: boolean | null;
  /** The report is drawn in Markdown. */
  markdown?: boolean | null;
  /** Sources that snippets name by their numbers. */
  sources?: string[] | null;
}

/** Why a report is refused, as the error that `draw` rejects with: its name, and the numbers that it names, from 0. */
export interface Refused extends Error {
  name:
    | "NoGroup"
    | "NoTitle"
    | "SpanReversed"
    | "SpanPastEnd"
    | "SpanOffBoundary"
    | "PatchesOverlap"
    | "LineNumberTooLarge";
  group?: number;
  element?: number;
  marker?: number;
  first?: number;
  second?: number;
}

/** A `replay` that is kept open. */
export class Replay {
  /** Starts the program; left out, the `replay` of the PATH. */
  constructor(program?: string);

  /** The texts of a report, one for each sheet. Rejects with a Refused, or with another Error where the groups are no report, or where
   *  `replay` isn't there or has ended. */
  draw(groups: Group[], more?: More): Promise<string[]>;

  /** Ends `replay`, once it has drawn what it was asked for. */
  end(): void;
}
