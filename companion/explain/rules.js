// The answer `untypable`: by rule.

import { payload, covers } from './clauses.js';
import { alias, order, double, branch, unused, polarity, second } from './uses.js';

const RULES = { Alias: alias, Order: order, Double: double, Branch: branch, Payload: payload, Covers: covers, Unused: unused,
  Polarity: polarity, Second: second };

/** Undefined for a rule that isn't known here. */
export const untypable = context => RULES[context.verdict.rule]?.(context);
