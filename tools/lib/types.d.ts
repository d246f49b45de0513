// The shapes of what a call of a tool asks for. It is for tsc alone (.ci/javascript). What the values of a call are follows from its
// command's options, as options.js has them: `parsed` of calls.js makes no others.

declare namespace Calls {
  /** An option of a command. Without `value` it is a switch. */
  interface Option {
    /** as it is written: `--unit` */
    readonly name: string;
    /** a letter for it: `-o` */
    readonly short?: string;
    /** earlier names, which are read still */
    readonly old?: readonly string[];
    /** what its value is called in the result; else its name without dashes */
    readonly key?: string;
    /** what `--help` calls its value, or its two values */
    readonly value?: string | readonly [string, string];
    /** the values that it may have */
    readonly choices?: readonly string[];
    /** whether its values are whole numbers */
    readonly isWhole?: boolean;
    /** its values are lengths, in this unit where none stands after the number */
    readonly unit?: string;
    /** the least and the greatest number that it takes; of a length in nm */
    readonly range?: readonly [number, number];
    /** whether it may be given several times; its value is then a list */
    readonly isList?: boolean;
    /** its value where it is not given */
    readonly otherwise?: string | number | undefined;
    readonly help?: string;
  }

  /** A command as `--help` shows it. */
  interface Command<O extends Option = Option> {
    /** its name, as `tools/to_xnc` */
    readonly tool: string;
    /** what it does */
    readonly about: string;
    /** the file or files that it takes */
    readonly operand: { name: string; help?: string; isMany?: boolean; isOptional?: boolean };
    readonly options: readonly O[];
  }

  // ---- The values of a call ----

  type Word<O> = O extends { isWhole: true } | { unit: string } ? number : O extends { choices: readonly (infer C)[] } ? C : string;
  type Given<O> = O extends { value: readonly string[] } ? [Word<O>, Word<O>] : O extends { value: string } ? Word<O> : boolean;
  /** Null where it is not given, false of a switch. */
  type ValueOf<O> = O extends { isList: true } ? Given<O>[] : O extends { value: unknown } ? O extends { otherwise: unknown } ? Given<O>
    : Given<O> | null : boolean;
  type KeyOf<O> = O extends { key: infer K extends string } ? K : O extends { name: `--${infer K}` } ? K : never;
  type Values<O extends Option> = { [P in O as KeyOf<P>]: ValueOf<P> } & { operands: string[] };
  /** The values of a call of a command. */
  type Asked<C extends Command> = Values<C["options"][number]>;

  // ---- The options that are a converter's choices (CHOICES of web/convert) ----

  interface Switch<N extends string> extends Option { readonly name: N; readonly value?: never }
  interface Text<N extends string> extends Option { readonly name: N; readonly value: string }
  interface Texts<N extends string> extends Text<N> { readonly isList: true }
  interface One<N extends string, C extends string> extends Text<N> { readonly choices: readonly C[] }
  type OfBoth = One<"--unit", "mm" | "inch"> | Text<"--format"> | One<"--zeros", "leading" | "trailing">;
  interface OfConverter {
    gerber: OfBoth | Switch<"--nearest"> | One<"--arcs", "single" | "multi"> | Switch<"--repeat">;
    drill: OfBoth | Text<"--report"> | Texts<"--tool">;
  }
}
