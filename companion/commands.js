// What the companion's words do. Each command takes {files, pat, load, write, colours, ..} as cli.js makes it, and gives a status.

import { writeFileSync, readFileSync } from 'node:fs';
import { parse, Source } from './parse.js';
import { resolve } from './names.js';
import { readVerdict, isOpen } from './pat.js';
import { explain } from './explain/explain.js';
import { explainOutcome } from './explain/outcomes.js';
import { COLOURS, render } from './explain/render.js';
import { readRun, replay } from './step.js';
import { tell, trace } from './trace.js';
import { chartPages } from './chart.js';
import { endsOf, endsAsData, sayEnds } from './ends.js';
import { format } from './format.js';
import { signatures, types } from './types.js';

export const commands = { explain: explainFiles, check: checkFiles, run: runFile, trace: traceFile, chart: chartFile,
  explore: exploreFile, types: typesOfFiles, format: formatFiles };

// Of several files, the status that stands first here.
const GRAVEST_FIRST = [5, 4, 3, 1, 9, 8, 7, 6];
const gravest = statuses => GRAVEST_FIRST.find(one => statuses.includes(one)) ?? 0;

// ------------------------------------------------------------------------------------------------------------- verdicts

/** What `pat` says of an input, with its explanation: {source, command, line, status, output, explanation}. */
function judge(source, { pat, STATUS }) {
  const command = commandFor(source.text), { status, text } = pat([command], source.bytes), lines = text.trimEnd().split('\n');
  if (command === 'resume' && lines[0] === '%%history') return resumed(source, lines, status);
  const output = lines.filter(line => line.startsWith('out ')), line = lines.find(one => !one.startsWith('out ')) ?? '';
  if (status === STATUS.done) return { source, command, line, status, output, explanation: outcomeOf(source, command, line) };
  const verdict = readVerdict(line), replayed = replayedOf(source, verdict);
  const explanation = explain(source, verdict, { replayed });
  return { source, command, line, status: isOpen(verdict) ? STATUS.open : status, output: [], explanation };
}
/** Who judges what stands behind a program. */
function commandFor(text) {
  const mark = /^%%(derivation|history)$/m.exec(text)?.[1];
  if (mark === 'derivation' && /^%%checkpoint$/m.test(text)) return 'resume';
  return { derivation: 'verify', history: 'replay' }[mark] ?? 'check';
}
/** A run that went on from a checkpoint: its last line says how it ended. */
function resumed(source, lines, status) {
  const output = lines.filter(line => line.startsWith('out '));
  return { source, command: 'resume', line: lines.at(-1), status, output, explanation: null };
}
/** How a history that was taken back stands. */
function outcomeOf(source, command, outcome) {
  return command === 'replay' ? explainOutcome(replayOf(source, readRun(source.text).history, { outcome })) : null;
}
/** For a history that is refused: how the threads stand where it is. */
function replayedOf(source, { kind, entry }) {
  return kind === 'refused' ? replayOf(source, readRun(source.text).history, { most: entry + 1 }) : null;
}
function replayOf(source, history, options) {
  const mark = /^%%history$/m.exec(source.text);
  const program = parse(mark ? new Source(source.bytes.subarray(0, source.offset(mark.index)), source.name) : source);
  resolve(program);
  return replay(program, history, options);
}

/** An explanation as data: places with lines and columns. */
function plainly(source, explanation) {
  if (!explanation) return null;
  const marks = explanation.marks.map(one => ({ ...one, from: source.position(one.place.a), to: source.position(one.place.z) }));
  return { ...explanation, marks };
}
const json = value => JSON.stringify(value, (_, each) => typeof each === 'bigint' ? String(each) : each) + '\n';
function tellJudged({ source, line, status, output, explanation }, { write, colours, json: asJson }, several) {
  if (asJson) return write(json({ file: source.name, status, answer: line, output, explanation: plainly(source, explanation) }));
  write(output.map(one => one + '\n').join('') + (several ? `${source.name}: ` : '') + line + '\n');
  if (explanation) write(render(source, explanation, { colours }));
}

function explainFiles(context) {
  const { files, load, write, json: asJson } = context, statuses = [];
  for (const file of files) {
    if (statuses.length && !asJson) write('\n');
    const judged = judge(load(file), context);
    tellJudged(judged, context, files.length > 1);
    statuses.push(judged.status);
  }
  return gravest(statuses);
}
function checkFiles(context) {
  const { files, load, write, json: asJson, pat, STATUS } = context;
  return gravest(files.map(file => {
    const source = load(file), answer = pat(['check'], source.bytes), line = answer.text.split('\n', 1)[0];
    const status = answer.status === STATUS.wrong && isOpen(readVerdict(line)) ? STATUS.open : answer.status;
    write(asJson ? json({ file, status, answer: line }) : `${file}:${placeOf(source, readVerdict(line))} ${line}\n`);
    return status;
  }));
}
function placeOf(source, { place }) {
  if (!place) return '';
  const { line, column } = source.position(place.a);
  return `${line}:${column}:`;
}

// ----------------------------------------------------------------------------------------------------------------- runs

/** A program's run, or its given history: {source, text, run, status}; or what was refused, as `judge` says it. */
function runOf(context) {
  const { files: [file, historyFile, ...more], options, pat, load, STATUS, wrong } = context, source = load(file);
  if (more.length) wrong('one file, and its history');
  if (historyFile) return givenRun(source, readFileSync(historyFile, 'utf8'), context);
  const { status, text } = pat(['run', ...options], source.bytes);
  if (status === STATUS.usage) wrong(`pat run ${options.join(' ')}: these are no options of a run`);
  const read = readRun(text);
  if (!read) return { source, status, refused: judge(source, context) };
  return { source, text, status, run: replayOf(source, read.history, read) };
}
function givenRun(source, text, context) {
  const history = /^%%history$/m.test(text) ? text : '%%history\n' + text;
  const whole = source.text + (source.text.endsWith('\n') ? '' : '\n') + history;
  const judged = judge(new Source(whole, source.name), context);
  if (judged.command !== 'replay' || judged.status !== context.STATUS.done) return { source, status: judged.status, refused: judged };
  return { source, text: history, status: judged.status, run: replayOf(source, readRun(history).history, { outcome: judged.line }) };
}

function runFile(context) {
  const { files, quiet, write, colours, json: asJson } = context;
  if (files.length > 1) context.wrong('run takes one file');
  const { source, text, run, status, refused } = runOf(context);
  if (refused) {
    tellJudged(refused, context, false);
    return refused.status;
  }
  const explanation = explainOutcome(run), { output, outcome } = run;
  if (asJson) {
    const told = { file: source.name, status, output, outcome, explanation: plainly(source, explanation) };
    write(json(quiet ? told : { ...told, history: readRun(text).history }));
    return status;
  }
  write(quiet ? text.slice(text.indexOf('%%output\n') + '%%output\n'.length) : text);
  if (explanation) write(render(source, explanation, { colours }));
  return status;
}
function traceFile(context) {
  const { write, colours, json: asJson } = context, { source, run, status, refused } = runOf(context);
  if (refused) tellJudged(refused, context, false);
  else write(asJson ? json({ file: source.name, outcome: run.outcome, rows: tell(run) }) : trace(run, { source, colours }));
  return refused ? refused.status : status;
}
function chartFile(context) {
  if (!context.out) context.wrong('chart needs -o OUT.svg');
  const { source, run, status, refused } = runOf(context);
  if (refused) tellJudged(refused, context, false);
  else writePages(chartPages(run, { title: source.name, name: context.out }), context);
  return refused ? refused.status : status;
}
function writePages(pages, { write }) {
  for (const { name, text } of pages) writeFileSync(name, text);
  if (pages.length > 1) write(`${pages.length} pages: ${pages[0].name} to ${pages.at(-1).name}\n`);
}

/** All orders of commits, as far as a bound; or the history of one end, as `pat run` writes it. */
function exploreFile(context) {
  const { files: [file, ...more], states, seconds, end, pat, load, write, wrong, colours, STATUS } = context, source = load(file);
  if (more.length) wrong('explore takes one file');
  const checked = judge(source, context);
  if (checked.command !== 'check' || checked.status !== STATUS.done) {
    tellJudged(checked, context, false);
    return checked.status;
  }
  const program = parse(source), bounds = {};
  if (states) bounds.states = numberOf(states, wrong);
  if (seconds) bounds.seconds = numberOf(seconds, wrong);
  resolve(program);
  const found = endsOf(program, source, pat, bounds), waiting = found.ends.some(one => one.kind === 'waiting');
  if (end) write((found.ends[numberOf(end, wrong) - 1] ?? wrong(`there is no end ${end}`)).text);
  else write(context.json ? json({ file, ...endsAsData(found) }) : sayEnds(found, source, { colours }));
  return waiting ? STATUS.waiting : found.complete ? STATUS.done : STATUS.open;
}
const numberOf = (word, wrong) => /^[1-9][0-9]{0,8}$/.test(word) ? Number(word) : wrong(`${word} is no number of these`);

// ------------------------------------------------------------------------------------------------- types and the layout

function typesOfFiles(context) {
  const { files, load, pat, write, colours, json: asJson, STATUS } = context;
  return gravest(files.map(file => {
    const source = load(file), { status, text } = pat(['derive'], source.bytes);
    if (status !== STATUS.done) {
      const judged = judge(source, context);
      tellJudged(judged, context, files.length > 1);
      return judged.status;
    }
    const program = parse(source);
    if (asJson) write(json({ file, signatures: signatures(program, text).map(parts => parts.map(part => part.text).join('')) }));
    else write((files.length > 1 ? `${file}:\n` : '') + types(program, text, colours ? { paint: COLOURS.green } : {}));
    return status;
  }));
}

function formatFiles(context) {
  const { files, load, STATUS } = context;
  return gravest(files.map(file => {
    const source = load(file);
    let text;
    try { text = format(parse(source)); } catch (problem) { return unreadable(source, problem, context); }
    return laidOut(file, source, text, context);
  }));
}
/** A text that is no program stays as it is. */
function unreadable(source, problem, context) {
  if (problem.expected === undefined) throw problem;
  const { line, column } = source.position(problem.offset);
  const where = { offset: problem.offset, line, column };
  if (context.json) context.write(json({ file: source.name, status: context.STATUS.wrong, problem: where }));
  else context.write(`${source.name}:${line}:${column}: this is no program, so it stays as it is; \`explain\` says why\n`);
  return context.STATUS.wrong;
}
function laidOut(file, source, text, { check, write, json: asJson, STATUS }) {
  const changed = text !== source.text;
  if (asJson) write(json({ file, changed }));
  if (file === '-' && !check && !asJson) write(text);
  else if (changed && check && !asJson) write(`${file}\n`);
  else if (changed && !check && file !== '-') writeFileSync(file, text);
  return changed && check ? STATUS.wrong : STATUS.done;
}
