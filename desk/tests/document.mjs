// What the page's modules need of a document under node: the three parts of the built page that they read, and elements that can be made
// and looked into, without any layout.
import fs from 'node:fs';

const page = fs.readFileSync(new URL('../../target/desk/hocsimbur.html', import.meta.url), 'utf8');
const part = (id) => page.match(new RegExp(`<script type="[a-z/]+" id="${id}">([^]*?)</script>`))?.[1];

class Classes {
  constructor(own) { this.own = own; }

  get all() { return (this.own.getAttribute('class') ?? '').split(' ').filter(Boolean); }

  contains(name) { return this.all.includes(name); }

  add(...names) { this.own.setAttribute('class', [...new Set([...this.all, ...names])].join(' ')); }

  remove(...names) { this.own.setAttribute('class', this.all.filter((one) => !names.includes(one)).join(' ')); }

  toggle(name, on = !this.contains(name)) { this[on ? 'add' : 'remove'](name); }
}

export class Element {
  constructor(tag) {
    Object.assign(this, { tagName: tag.toUpperCase(), attributes: new Map(), childNodes: [], listeners: new Map(), style: {}, dataset: {}, parentNode: null });
    this.classList = new Classes(this);
  }

  setAttribute(name, value) {
    this.attributes.set(name, String(value));
    if (name.startsWith('data-')) this.dataset[name.slice(5).replace(/-(\w)/g, (_, one) => one.toUpperCase())] = String(value);
  }

  getAttribute(name) { return this.attributes.get(name) ?? null; }

  removeAttribute(name) { this.attributes.delete(name); }

  append(...nodes) {
    for (const node of nodes) {
      if (node instanceof Element) node.parentNode = this;
      this.childNodes.push(node instanceof Element ? node : String(node));
    }
  }

  replaceChildren(...nodes) { this.childNodes = []; this.append(...nodes); }

  cloneNode() {
    const made = new Element(this.tagName);
    this.attributes.forEach((value, name) => made.setAttribute(name, value));
    made.append(...this.childNodes.map((node) => (node instanceof Element ? node.cloneNode() : node)));
    return made;
  }

  addEventListener(kind, call) { this.listeners.set(kind, [...(this.listeners.get(kind) ?? []), call]); }

  // An event as the browser would send it; `event` has what the listener reads.
  send(kind, event = {}) { (this.listeners.get(kind) ?? []).forEach((call) => call({ preventDefault() {}, target: this, ...event })); }

  remove() {
    if (this.parentNode) this.parentNode.childNodes = this.parentNode.childNodes.filter((node) => node !== this);
    this.parentNode = null;
  }

  insertBefore(node, next) {
    node.remove();
    node.parentNode = this;
    this.childNodes.splice(next ? this.childNodes.indexOf(next) : this.childNodes.length, 0, node);
  }

  contains(one) { for (let node = one; node; node = node.parentNode) if (node === this) return true; return false; }

  focus() { document.activeElement = this; }

  get nextSibling() { return this.parentNode.childNodes[this.parentNode.childNodes.indexOf(this) + 1] ?? null; }

  get rows() { return this.withTag('tr'); }

  get className() { return this.getAttribute('class') ?? ''; }

  set className(names) { this.setAttribute('class', names); }

  // A selector of tags, classes and attributes, with spaces for what is under, and commas.
  matches(query) {
    return query.split(',').some((one) => {
      const [last, ...above] = one.trim().split(/ (?![^[]*\])/).reverse();
      const own = [...last.matchAll(/^\w+|\.[\w-]+|#[\w-]+|\[([\w-]+)(?:="?([^"\]]*)"?)?\]/g)].every(([whole, name, value]) =>
        (whole[0] === '.' ? this.classList.contains(whole.slice(1)) : whole[0] === '#' ? this.getAttribute('id') === whole.slice(1)
          : name ? (value === undefined ? this.getAttribute(name) !== null : this.getAttribute(name) === value) : this.tagName === whole.toUpperCase()));
      return own && above.every((upper) => this.parentNode?.closest(upper));
    });
  }

  closest(query) { return this.matches(query) ? this : this.parentNode?.closest(query) ?? null; }

  querySelectorAll(query) { return this.all((one) => one.matches(query)); }

  querySelector(query) { return this.querySelectorAll(query)[0] ?? null; }

  get clientWidth() { return 500; }

  getBoundingClientRect() { return { left: 0, top: 0, right: 500, bottom: 264, width: 500, height: 264 }; }

  get children() { return this.childNodes.filter((node) => node instanceof Element); }

  get firstChild() { return this.childNodes[0] ?? null; }

  get textContent() { return this.childNodes.map((node) => (node instanceof Element ? node.textContent : node)).join(''); }

  set textContent(text) { this.childNodes = text ? [String(text)] : []; }

  // All elements under this one that a test holds for.
  all(holds) { return this.children.flatMap((one) => [...(holds(one) ? [one] : []), ...one.all(holds)]); }

  withClass(...names) { return this.all((one) => names.every((name) => one.classList.contains(name))); }

  withTag(tag) { return this.all((one) => one.tagName === tag.toUpperCase()); }
}

// The elements of the page by their ids, as they are asked for.
const ids = new Map();
function byId(id) {
  if (part(id) !== undefined) return { textContent: part(id) };
  if (!ids.has(id)) {
    const made = new Element('div');
    made.setAttribute('id', id);
    made.value = '';
    ids.set(id, made);
  }
  return ids.get(id);
}

globalThis.document = {
  createElement: (tag) => new Element(tag), createElementNS: (_, tag) => new Element(tag), getElementById: byId, activeElement: null,
};

// Markup that the product itself wrote: elements and text, as its symbols and signs have them.
globalThis.DOMParser = class {
  parseFromString(text) {
    const body = new Element('body'), open = [body];
    for (const [, tag, text_] of text.matchAll(/<([^>]*)>|([^<]+)/g)) {
      if (text_ !== undefined) { open.at(-1).append(text_); continue; }
      if (tag.startsWith('/')) { open.pop(); continue; }
      const made = new Element(/^\w+/.exec(tag)[0]);
      for (const [, name, value] of tag.matchAll(/([\w-]+)="([^"]*)"/g)) made.setAttribute(name, value);
      open.at(-1).append(made);
      if (!tag.endsWith('/')) open.push(made);
    }
    return { body };
  }
};
