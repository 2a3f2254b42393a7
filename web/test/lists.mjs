// Tries the lists as values: of each source, with some k, the document that the program prints, whose lists are those of `compile --text`
// and whose places are those of `map`; then entries and refusals.
// usage: node web/test/lists.mjs ASL SOURCE..      ASL is the program to compare with
import assert from 'node:assert';
import { execFileSync } from 'node:child_process';
import { readFileSync } from 'node:fs';
import { openAsl } from '../module.mjs';

const asl = await openAsl(), [program, ...sources] = process.argv.slice(2);
const run = (words, input) => execFileSync(program, words, { input, encoding: 'utf8' });

for (const path of sources) {
  const bytes = readFileSync(path), source = bytes.toString(), map = run(['map'], source).split('\n').map(line => line.split(' '));
  for (const k of [0, 3, 'auto']) {
    const got = asl.lists(k ? source : bytes, { k });
    assert.deepEqual(got, JSON.parse(run(['lists', '--k', k], source)), path);
    const texts = run(['compile', '--text', '--k', got.k], source).split('\nlist').slice(1).map(part => part.trim().split('\n').filter(Boolean));
    assert.deepEqual(got.sections.map(({ locks }) => locks.map(({ text }) => text)), texts, path);
    assert.deepEqual(got.sections.map(({ from, to }) => [from, to].map(String)), map.filter(([kind]) => kind === 'section').map(words => words.slice(3)));
    for (const { line, from, to } of got.sections) {
      assert.ok(source.slice(from, to).startsWith('atomic'));
      assert.equal(line, source.slice(0, from).split('\n').length);
    }
    assert.equal(got.classes.flatMap(({ globals, sites }) => [...globals, ...sites]).length, map.filter(([kind]) => kind === 'class').length);
  }
}

const counter = 'global h;\nfn main(t) { p = &h; atomic { x = *p; } return x; }\nfn f(a) { return a; }';
const { k, sections, functions, warnings, driver } = asl.lists(counter);
assert.deepEqual([k, driver, warnings.length, functions.map(({ name, reached }) => [name, reached])], [3, '', 1, [['main', true], ['f', false]]]);
const [lock] = sections[0].locks;
assert.deepEqual([lock.kind, lock.effect, lock.text, lock.base.name, lock.path], ['expr', 'read', 'expr r1 read', 'p', []]);
assert.equal(asl.lists(counter, { k: 'auto' }).k, 8);

const calls = 'fn put(p, v) { atomic { *p = v; } return v; } fn get(p) { atomic { x = *p; } return x; }';
const entries = ['put', 'get'], both = asl.lists(calls, { entries });
assert.deepEqual(both, JSON.parse(run(['lists', '--entry', 'put', '--entry', 'get'], calls)));
assert.ok(both.driver.includes('_entry0') && both.sections.length === 2);
const classOf = n => both.sections[n].locks.find(({ kind }) => kind === 'expr').class;
assert.notEqual(classOf(0), classOf(1));

assert.throws(() => asl.lists('fn main(t) { return u; }'), { name: 'Unknown', message: 'Unknown(u)', status: 1 });
assert.throws(() => asl.lists(counter, { entries: ['f'] }), { name: 'Twice', message: 'Twice(main)' });
assert.throws(() => asl.lists(calls, { entries: ['drop'] }), { name: 'Unknown', message: 'Unknown(drop)' });
for (const options of [{ k: 9 }, { k: 'most' }, { k: -1 }, { entries: ['a b'] }, { entries: ['--k'] }, { entries: ['put\nget'] }, { entries: [''] }])
  assert.throws(() => asl.lists(counter, options), { name: 'WrongUsage', status: 2 }, JSON.stringify(options));
console.log(`web/test/lists: ${sources.length} sources`);
