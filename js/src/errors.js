/** The library refuses what it was asked; the subclass says why. */
export class HidReportError extends Error {
  constructor(message) {
    super(message);
    this.name = new.target.name;
  }
}

/** An item of the descriptor can't be read, or has no meaning where it stands. */
export class InvalidData extends HidReportError {
  constructor(offset, text) {
    super(`invalid data at offset ${offset}: ${text}`);
    this.offset = offset;
    this.text = text;
  }
}

/** A count passes what can be counted, or a field lies outside the report's bytes. */
export class OutOfBounds extends HidReportError {}

/** The report's first byte isn't the id that the field is read by. */
export class MismatchingReportId extends HidReportError {}

/** Memory was refused. */
export class OutOfMemory extends HidReportError {}

/** The descriptor lists more than the limit, or is too long for one. */
export class BudgetExceeded extends HidReportError {
  constructor(offset) {
    super(`budget exceeded at offset ${offset}`);
    this.offset = offset;
  }
}

/** An option has no such number. */
export class UnknownOption extends HidReportError {}

/** So many bits don't hold the number, signed or unsigned as the field is. */
export class DoesNotFit extends HidReportError {}

/** There are more or fewer numbers than the field has values. */
export class WrongCount extends HidReportError {}

const REFUSALS = {
  2: [OutOfBounds, "out of bounds"],
  3: [MismatchingReportId, "the report has another id"],
  4: [OutOfMemory, "memory was refused"],
  6: [UnknownOption, "unknown option"],
  7: [DoesNotFit, "a number doesn't fit"],
  8: [WrongCount, "more or fewer numbers than the field has values"],
};

/** Throws what a status of the library says, if it is a refusal. */
export function check(status, offset = 0, text = "") {
  if (status === 0) return;
  if (status === 1) throw new InvalidData(offset, text);
  if (status === 5) throw new BudgetExceeded(offset);
  const [Refusal, words] = REFUSALS[status];
  throw new Refusal(words);
}
