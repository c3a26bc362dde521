// What of the page that is seen now some people could not use: evaluated in a browser by access.py, it answers sentences.
(() => {
  const found = [], all = [...document.querySelectorAll('body *')];
  const told = (one) => {
    const kind = typeof one.className === 'string' ? one.className : one.className.baseVal;
    return `${one.tagName.toLowerCase()}${one.id ? `#${one.id}` : ''}${kind ? `.${kind.trim().replace(/\s+/g, '.')}` : ''}`
      + `${one.dataset?.key ? `[${one.dataset.key}]` : ''} '${(one.textContent ?? '').trim().slice(0, 30)}'`;
  };
  const wrong = (one, words) => found.push(`${told(one)}: ${words}`);
  const seen = (one) => one.checkVisibility({ visibilityProperty: true }) && one.getClientRects().length > 0;
  const shown = all.filter(seen);

  // names and roles
  const ids = all.map((one) => one.id).filter(Boolean);
  ids.filter((id, i) => ids.indexOf(id) !== i).forEach((id) => found.push(`the id ${id} stands twice`));
  for (const one of all) {
    for (const name of ['aria-labelledby', 'aria-describedby', 'aria-controls', 'for', 'list']) {
      const ref = one.getAttribute(name);
      if (ref && !ref.split(' ').every((id) => document.getElementById(id))) wrong(one, `${name} names what is not there: ${ref}`);
    }
  }
  const textOf = (one) => (one.nodeType === 3 ? one.textContent
    : one.nodeType !== 1 || one.getAttribute('aria-hidden') === 'true' ? '' : one.getAttribute('aria-label')
      ?? [...one.childNodes].map(textOf).join(' ')).trim();
  const nameOf = (one) => {
    const by = one.getAttribute('aria-labelledby');
    if (by) return by.split(' ').map((id) => textOf(document.getElementById(id))).join(' ');
    if (one.getAttribute('aria-label')) return one.getAttribute('aria-label');
    if (one.labels?.length) return [...one.labels].map(textOf).join(' ');
    return /^(input|select|textarea)$/i.test(one.tagName) ? '' : textOf(one) || (one.getAttribute('title') ?? '');
  };
  const CONTROLS = 'button, input, select, textarea, summary, a[href], [tabindex], [role=tab], [role=slider], [role=grid], [role=img], '
    + '[role=tabpanel], [role=tablist], [role=group], [role=region]';
  const controls = shown.filter((one) => one.matches(CONTROLS));
  for (const one of controls) {
    if (!nameOf(one) && !one.matches('#sheet [role=gridcell]')) wrong(one, 'has no name');
    if (one.matches('[role=slider]') && ['valuemin', 'valuemax', 'valuenow', 'valuetext'].some((name) => !one.getAttribute(`aria-${name}`))) {
      wrong(one, 'a slider without its value');
    }
  }
  for (const grid of document.querySelectorAll('[role=grid]')) {
    if (!seen(grid)) continue;
    const rows = [...grid.querySelectorAll('tbody tr')].filter((tr) => seen(tr) && !tr.matches('.space'));
    for (const tr of rows) {
      if (!tr.querySelector('th[scope=row]')) wrong(tr, 'a row without a head');
      for (const td of tr.cells) if (td.tagName === 'TD' && td.getAttribute('role') !== 'gridcell') { wrong(td, 'no gridcell'); break; }
    }
    for (const th of grid.querySelectorAll('thead th')) if (!th.scope && textOf(th)) wrong(th, 'a head without a scope');
    if (grid.querySelectorAll('[tabindex="0"]').length !== 1) wrong(grid, 'not one cell in the order of Tab');
    if (rows[0]?.getAttribute('aria-rowindex')) {
      const most = Number(grid.getAttribute('aria-rowcount')), last = Math.max(...rows.map((tr) => Number(tr.getAttribute('aria-rowindex'))));
      if (!(most >= last)) wrong(grid, `aria-rowcount ${most} though row ${last} is drawn`);
    }
  }
  for (const tab of document.querySelectorAll('[role=tab]')) {
    const on = tab.getAttribute('aria-selected') === 'true', panel = document.getElementById(tab.getAttribute('aria-controls'));
    if (tab.tabIndex !== (on ? 0 : -1)) wrong(tab, 'of tabs only the chosen one is in the order of Tab; arrows move among them');
    if (panel?.getAttribute('role') !== 'tabpanel' || panel.hidden === on) wrong(tab, 'its panel is another');
  }
  for (const id of ['live', 'said']) {
    const one = document.getElementById(id);
    if (one.getAttribute('aria-live') !== 'polite') wrong(one, 'is not heard');
  }
  // what looks as if it could be clicked can be reached by keys: itself, what it labels, or the part that has it
  for (const one of shown) {
    if (!['pointer', 'cell', 'crosshair'].includes(getComputedStyle(one).cursor) || one.matches(':disabled')) continue;
    const own = one.closest('button, input, select, textarea, summary, a[href], [tabindex], [role=tab], #sheet tr, [role=grid]');
    if (!own && !one.closest('label')?.control) wrong(one, 'is clicked, but not reached by keys');
  }

  // colours, by the alpha of each background of the elements that have it
  const canvas = new OffscreenCanvas(1, 1).getContext('2d', { willReadFrequently: true });
  const known = new Map();
  const colour = (text) => {
    if (!known.has(text)) {
      canvas.clearRect(0, 0, 1, 1);
      canvas.fillStyle = text;
      canvas.fillRect(0, 0, 1, 1);
      const [r, g, b, a] = canvas.getImageData(0, 0, 1, 1).data;
      known.set(text, [r, g, b, a / 255]);
    }
    return known.get(text);
  };
  const over = ([r, g, b, a], [x, y, z]) => [r * a + x * (1 - a), g * a + y * (1 - a), b * a + z * (1 - a), 1];
  const behind = (one) => {
    const own = one ? colour(getComputedStyle(one).backgroundColor) : [255, 255, 255, 1];
    return own[3] === 1 ? own : over(own, one.parentElement ? behind(one.parentElement) : colour(getComputedStyle(document.body).backgroundColor));
  };
  const light = ([r, g, b]) => [r, g, b].map((v) => v / 255).map((v) => (v <= 0.04045 ? v / 12.92 : ((v + 0.055) / 1.055) ** 2.4))
    .reduce((sum, v, i) => sum + v * [0.2126, 0.7152, 0.0722][i], 0);
  const contrast = (one, other) => {
    const [high, low] = [light(one), light(other)].sort((a, b) => b - a);
    return (high + 0.05) / (low + 0.05);
  };
  const lowest = { text: 99, edge: 99, drawn: 99 };
  const least = (kind, one, ink, ground, needed, what) => {
    const ratio = contrast(over(ink, ground), ground);
    lowest[kind] = Math.min(lowest[kind], ratio);
    if (ratio < needed) wrong(one, `${what} has a contrast of ${ratio.toFixed(2)}, not ${needed}`);
  };
  const overlaps = (a, b) => a.left < b.right && b.left < a.right && a.top < b.bottom && b.top < a.bottom;
  const groundsOf = (one) => [behind(one), ...[...(one.ownerSVGElement?.querySelectorAll('rect.band') ?? [])]
    .filter((band) => overlaps(band.getBoundingClientRect(), one.getBoundingClientRect())).map((band) => colour(getComputedStyle(band).fill))];
  for (const one of shown) {
    const style = getComputedStyle(one), svg = one.ownerSVGElement;
    const text = [...one.childNodes].some((node) => node.nodeType === 3 && node.textContent.trim());
    if (text && !one.matches(':disabled, .vh, title, desc') && !one.closest('.vh')) {
      const size = parseFloat(style.fontSize), large = !svg && (size >= 24 || (size >= 18.66 && Number(style.fontWeight) >= 700));
      for (const ground of groundsOf(one)) least('text', one, colour(svg ? style.fill : style.color), ground, large ? 3 : 4.5, 'its text');
    }
    if (one.matches('input, textarea') && one.placeholder && !one.disabled) {
      const own = getComputedStyle(one, '::placeholder'), [r, g, b, a] = colour(own.color);
      least('text', one, [r, g, b, a * Number(own.opacity)], behind(one), 4.5, 'its placeholder');
    }
    if (one.matches('button, input:not([type=checkbox], .editor), textarea, select, .verb') && !one.matches(':disabled, .link, .do')) {
      const around = one.parentElement ? behind(one.parentElement) : behind(one);
      const edges = ['Top', 'Right', 'Bottom', 'Left'].filter((side) => parseFloat(style[`border${side}Width`]) > 0)
        .map((side) => colour(style[`border${side}Color`])).filter((ink) => ink[3] > 0);
      const best = Math.max(0, ...edges.map((ink) => contrast(over(ink, around), around)), contrast(behind(one), around));
      lowest.edge = Math.min(lowest.edge, best);
      if (best < 3) wrong(one, `its border has a contrast of ${best.toFixed(2)}, not 3`);
    }
    if (svg && one.matches('.mark *, .bar .fill, .bar .over, .voltage, .tolerable:not(text), .curve, .dot, .wire, .rod circle, .now circle')
      && !one.matches('text')) {
      const ink = style.stroke !== 'none' ? style.stroke : style.fill;
      const inner = one.closest('.mark') && one !== one.parentElement.firstElementChild; // the sign in a mark stands on its shape
      if (ink !== 'none' && !inner) for (const ground of groundsOf(one)) least('drawn', one, colour(ink), ground, 3, 'the drawing');
    }
  }
  const moving = shown.filter((one) => ['transitionDuration', 'animationDuration'].some((name) => parseFloat(getComputedStyle(one)[name]) > 0));
  if (matchMedia('(prefers-reduced-motion: reduce)').matches) moving.forEach((one) => wrong(one, 'moves'));
  if (document.documentElement.scrollWidth > innerWidth) found.push(`the page is ${document.documentElement.scrollWidth} px wide`);
  return { found: [...new Set(found)], lowest, controls: controls.length, texts: shown.length };
})()
