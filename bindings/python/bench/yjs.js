// The same as bench.py with Yjs, as far as it has the like: node yjs.js ELEMENTS. Debian's node-yjs, nested Y.Maps.
'use strict';
const Y = require('yjs');

const EDITS = 2000;
const elements = Number(process.argv[2]);
const times = elements > 10000 ? 5 : 200;

// What the process has used of processors, in microseconds, with what collects its garbage and compiles it.
function now() {
  const used = process.cpuUsage();
  return used.user + used.system;
}

function say(what, microseconds, times, size) {
  console.log([what, times, (microseconds / times).toFixed(4), size].filter(it => it !== undefined).join('\t'));
}

function each(what, count, call, size) {
  const begun = now();
  for (let number = 0; number < count; number++) call(number);
  say(what, now() - begun, count, size);
}

// A set of one register is a transaction, as an edit of rds is a dot.
function set(doc, number, value) {
  doc.transact(() => {
    const root = doc.getMap('root');
    const key = `m${number % 100}`;
    let map = root.get(key);
    if (map === undefined) root.set(key, (map = new Y.Map()));
    map.set(`k${number}`, value);
  });
}

function meet(first, second) {
  let asking = 0, answering = 0, taking = 0, question, answer;
  for (let number = 0; number < times; number++) {
    for (let edit = 0; edit < 10; edit++) set(first, (number * 10 + edit) * 91 % elements, -number);
    const begun = now();
    question = Y.encodeStateVector(second);
    const asked = now();
    answer = Y.encodeStateAsUpdate(first, question);
    const answered = now();
    Y.applyUpdate(second, answer);
    asking += asked - begun, answering += answered - asked, taking += now() - answered;
  }
  say('ask, after ten edits', asking, times, question.length);
  say('answer', answering, times, answer.length);
  say('take', taking, times);
}

const first = new Y.Doc(), second = new Y.Doc();
each('edit: a new register, from an empty document on', elements, i => set(first, i, i));
each('get of one register', times, () => first.getMap('root').get('m5').get('k5'));
each('view of one map of 100', times, () => first.getMap('root').get('m5').toJSON());
each('view of all', times, () => first.getMap('root').toJSON());
const snapshot = Y.encodeStateAsUpdate(first);
each('snapshot', times, () => Y.encodeStateAsUpdate(first), snapshot.length);
each('snapshot opened, and freed', times, () => Y.applyUpdate(new Y.Doc(), snapshot));
each('merge of a snapshot into an empty replica', 1, () => Y.applyUpdate(second, snapshot));
each('merge of a snapshot that is there', times, () => Y.applyUpdate(second, snapshot));
meet(first, second);
each('edit: an old register set anew', EDITS, i => set(first, i * 37 % elements, i));
each('edit: a new register', EDITS, i => set(first, elements + i, i));
