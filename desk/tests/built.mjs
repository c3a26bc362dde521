// The built page as text: nothing can be fetched, script and style are those of the policy's hashes, and the library is the built one.
import assert from 'node:assert/strict';
import { createHash } from 'node:crypto';
import fs from 'node:fs';
import test from './tested.mjs';

const at = (name) => new URL(`../../target/${name}`, import.meta.url);
const page = fs.readFileSync(at('desk/hocsimbur.html'), 'utf8');
const [policy] = page.match(/(?<=http-equiv="Content-Security-Policy" content=")[^"]*/);
const inside = (tag) => [...page.matchAll(new RegExp(`<${tag}>([^]*?)</${tag.split(' ')[0]}>`, 'g'))].map((found) => found[1]);
const digest = (text) => `'sha256-${createHash('sha256').update(text).digest('base64')}'`;
const [script, ...scripts] = inside('script type="module"'), [style, ...styles] = inside('style');

test('one script and one style, by their hashes, and nothing else may run or be fetched', () => {
  assert.deepEqual([scripts, styles], [[], []]);
  assert.equal(policy, `default-src 'none'; script-src ${digest(script)} 'wasm-unsafe-eval'; style-src ${digest(style)}; `
    + "base-uri 'none'; form-action 'none'");
  const kinds = [...page.matchAll(/<script type="([^"]+)"/g)].map((found) => found[1]);
  assert.deepEqual(kinds, ['application/json', 'application/json', 'text/plain', 'module']);
  assert.doesNotMatch(page, /<(link|img|iframe|object|embed|form|base)\b|\s(src|style|on\w+)=/i);
});

test('no text of the data can end the element that it stands in', () => {
  const parts = [...page.matchAll(/<script type="application\/json" id="\w+">([^]*?)<\/script>/g)].map((found) => found[1]);
  assert.deepEqual(parts.map((text) => text.includes('<')), [false, false]);
});

test('what only a screen can use is not printed, and who wants no motion has none', () => {
  const [, hidden] = style.match(/@media print\{[^]*?\n {2}([^{}\n]*)\{display:none!important\}/);
  for (const one of ['nav', '.acts', '.chips', '#varied', '.foot', '#panel-site']) assert.ok(hidden.split(',').includes(one), `${one} of ${hidden}`);
  assert.match(style, /@media \(prefers-reduced-motion:reduce\)\{\*\{transition:none!important;animation:none!important/);
});

test('no text becomes markup, and nothing is stored', () => {
  assert.doesNotMatch(script, /innerHTML|outerHTML|insertAdjacentHTML|document\.write|\beval\(|new Function/);
  assert.doesNotMatch(script, /localStorage|sessionStorage|indexedDB|cookie/);
  assert.doesNotMatch(script, /XMLHttpRequest|WebSocket|sendBeacon|EventSource|RTCPeer/);
});

test('the library inside is the built one', () => {
  const wasm = page.match(/<script type="text\/plain" id="wasm">([^<]*)</)[1];
  assert.ok(Buffer.from(wasm, 'base64').equals(fs.readFileSync(at('wasm32/hocsimbur.wasm'))));
  assert.ok(Buffer.byteLength(page) < 450000);
});

test('a module imports only from its own layer and those above it', () => {
  const layers = ['library', 'words', 'sheet', 'judging', 'views'], src = new URL('../src/', import.meta.url);
  for (const [place, layer] of layers.entries()) {
    for (const file of fs.readdirSync(new URL(`${layer}/`, src))) {
      const text = fs.readFileSync(new URL(`${layer}/${file}`, src), 'utf8');
      const others = [...text.matchAll(/from '\.\.\/(\w+)\//g)].map(([, other]) => other);
      assert.deepEqual(others.filter((other) => layers.indexOf(other) > place), [], `${layer}/${file}`);
    }
  }
});
