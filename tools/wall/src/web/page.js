'use strict';
(() => {
  const svg = document.querySelector('#sheet svg');
  const said = document.getElementById('said');
  const search = document.getElementById('search');
  const rows = [...document.querySelectorAll('tr[data-row]')];
  const byBranch = new Map(rows.map(row => [row.dataset.row, row]));
  const named = (name, value) => [...svg.querySelectorAll(`[${name}="${value}"]`)];
  const button = row => row.querySelector('button');
  const visible = () => rows.filter(row => !row.hidden);
  let chosen = null;

  // Whatever on the sheet is a branch's: its run, numbers, cross, isolators and sign.
  const KEYS = ['data-branch', 'data-number', 'data-at-gap', 'data-cross', 'data-switch', 'data-kind'];
  const parts = branch => KEYS.flatMap(name => named(name, branch));

  // Thin lines are hard to point at: each run has a broad one over it that isn't seen.
  const hits = document.createElementNS('http://www.w3.org/2000/svg', 'g');
  for (const run of svg.querySelectorAll('[data-branch]')) {
    const hit = document.createElementNS('http://www.w3.org/2000/svg', 'path');
    hit.setAttribute('class', 'hit');
    hit.setAttribute('d', run.getAttribute('d'));
    hit.dataset.hit = run.getAttribute('data-branch');
    hits.append(hit);
  }
  svg.append(hits);

  function dark() {
    svg.classList.remove('lighting');
    svg.querySelectorAll('.halo').forEach(halo => halo.remove());
    document.querySelectorAll('.lit').forEach(part => part.classList.remove('lit'));
  }

  // Lights a circuit from end to end: its run, both bars, both boxes, and its row of the index.
  function light(branch) {
    dark();
    const row = byBranch.get(branch);
    if (!row) return;
    svg.classList.add('lighting');
    for (const run of named('data-branch', branch)) {
      const halo = document.createElementNS('http://www.w3.org/2000/svg', 'path');
      halo.setAttribute('class', 'halo');
      halo.setAttribute('d', run.getAttribute('d'));
      run.before(halo);
    }
    const buses = row.dataset.buses.split(' ').flatMap(bus => named('data-bus', bus));
    const boxes = row.dataset.stations.split(' ').flatMap(station => named('data-station', station));
    [...parts(branch), ...buses, ...boxes, row].forEach(part => part.classList.add('lit'));
  }

  function tell(row) {
    said.textContent = row.dataset.said;
  }

  // What is chosen stays lit until another is, or Escape.
  function choose(branch, scroll) {
    rows.forEach(row => row.classList.remove('chosen'));
    rows.forEach(row => button(row).setAttribute('aria-pressed', String(row.dataset.row === branch)));
    chosen = branch;
    if (branch === null) {
      dark();
      said.textContent = '';
      return;
    }
    const row = byBranch.get(branch);
    row.classList.add('chosen');
    light(branch);
    tell(row);
    if (scroll === 'sheet') {
      named('data-branch', branch).forEach(run => run.scrollIntoView({ block: 'center', inline: 'center' }));
    } else {
      row.hidden = false;
      row.scrollIntoView({ block: 'center' });
    }
  }

  function hover(branch) {
    if (branch === null) {
      if (chosen === null) dark(); else light(chosen);
    } else {
      light(branch);
      if (byBranch.has(branch)) tell(byBranch.get(branch));
    }
  }

  const branchOf = target => {
    const part = target.closest ? target.closest('[data-hit],[data-number],[data-at-gap],[data-cross],[data-switch]') : null;
    if (!part) return null;
    const keys = ['data-hit', 'data-number', 'data-at-gap', 'data-cross', 'data-switch'];
    return keys.map(key => part.getAttribute(key)).find(value => value !== null);
  };
  svg.addEventListener('pointerover', event => hover(branchOf(event.target)));
  svg.addEventListener('pointerleave', () => hover(null));
  svg.addEventListener('click', event => {
    const branch = branchOf(event.target);
    if (branch !== null) choose(branch === chosen ? null : branch, 'index');
  });
  rows.forEach(row => {
    row.addEventListener('pointerenter', () => hover(row.dataset.row));
    row.addEventListener('pointerleave', () => hover(null));
    button(row).addEventListener('click', () => choose(row.dataset.row === chosen ? null : row.dataset.row, 'sheet'));
    button(row).addEventListener('focus', () => hover(row.dataset.row));
  });

  // Rows that have all words; the exact number, isolator or name is the best.
  function find() {
    const text = search.value.trim().toLowerCase();
    const words = text.split(/\s+/).filter(word => word);
    rows.forEach(row => { row.hidden = !words.every(word => row.dataset.search.includes(word)); });
    const shown = visible();
    const exact = shown.filter(row => row.dataset.exact.split('\n').includes(text));
    const best = exact[0] || shown[0];
    if (!text) {
      said.textContent = '';
      hover(null);
      return null;
    }
    const count = `${shown.length} of ${rows.length} branches`;
    const first = exact.length === 1 || shown.length === 1 ? `: ${best.dataset.said}` : '';
    said.textContent = count + first;
    if (best) light(best.dataset.row); else dark();
    return best ? best.dataset.row : null;
  }
  search.addEventListener('input', find);
  search.addEventListener('keydown', event => {
    if (event.key === 'Enter') {
      const best = find();
      if (best !== null) choose(best, 'sheet');
    } else if (event.key === 'ArrowDown' && visible().length) {
      event.preventDefault();
      button(visible()[0]).focus();
    }
  });
  document.addEventListener('keydown', event => {
    const row = event.target.closest ? event.target.closest('tr[data-row]') : null;
    if (event.key === 'Escape') {
      search.value = '';
      find();
      choose(null);
      search.focus();
    } else if (row && (event.key === 'ArrowDown' || event.key === 'ArrowUp')) {
      event.preventDefault();
      const shown = visible();
      const next = shown.indexOf(row) + (event.key === 'ArrowDown' ? 1 : -1);
      if (next < 0) search.focus(); else if (next < shown.length) button(shown[next]).focus();
    } else if (event.key === '/' && event.target !== search) {
      event.preventDefault();
      search.focus();
    }
  });

  let zoom = 1;
  const set = value => {
    zoom = Math.min(16, Math.max(1, value));
    svg.style.setProperty('--zoom', zoom);
    if (chosen !== null) {
      named('data-branch', chosen).forEach(run => run.scrollIntoView({ block: 'nearest', inline: 'center' }));
    }
  };
  document.getElementById('larger').addEventListener('click', () => set(zoom * 1.5));
  document.getElementById('smaller').addEventListener('click', () => set(zoom / 1.5));
  document.getElementById('print').addEventListener('click', () => window.print());
})();
