// What a browser sees on a sheet and the pages of its index: every run, cross and number is there, or its row in a box
// that is shaded and in the index by row; nothing lies outside the page, texts keep clear, circuits that run as one stroke
// are marked, and colours are those of the voltages.
(() => {
    const [svg, ...index] = document.querySelectorAll('svg');
    const wrong = [];
    const all = (query, root = svg) => [...root.querySelectorAll(query)];
    const rect = (element) => {
        const b = element.getBBox();
        return { left: b.x, top: b.y, right: b.x + b.width, bottom: b.y + b.height, width: b.width, height: b.height };
    };
    const meet = (a, b, by) => a.left + by < b.right && b.left + by < a.right && a.top + by < b.bottom && b.top + by < a.bottom;
    const name = (element) => element.textContent || element.id || element.tagName;
    const number = (element, attribute) => parseFloat(element.getAttribute(attribute) || 0);

    // Substations to whose boxes a line leads from their names.
    const led = new Set(all('[data-leads]').map((line) => line.dataset.leads));

    // The rows of a file of the export by its header's names; none where the network is a text.
    const read = (id) => {
        const rows = [[]], text = document.getElementById(id).textContent.trim().replace(/^\uFEFF/, '');
        for (const [, quoted, plain, end] of text.matchAll(/(?:"((?:[^"]|"")*)"|([^,\r\n]*))(,|\r?\n|$)/g)) {
            if (!end && quoted === undefined && !plain && !rows.at(-1).length) break;
            rows.at(-1).push((quoted === undefined ? plain : quoted.replaceAll('""', '"')).trim());
            if (!end) break;
            if (end !== ',') rows.push([]);
        }
        const [head, ...lines] = rows.filter((cells) => cells.length > 1);
        return lines.map((cells) => Object.fromEntries((head || []).map((h, i) => [h.toLowerCase(), cells[i]])));
    };
    const buses = read('buses'), branches = read('branches');
    const names = [...new Set(buses.map((bus) => bus.substation))], busOf = new Map(buses.map((bus) => [bus.name, bus]));

    // Pieces as `wall list` gives them: branch and role of each.
    const roles = new Map();
    for (const line of document.getElementById('list').textContent.trim().split('\n').slice(1)) {
        const [branch, role] = line.split(' ');
        roles.set(branch, role);
    }
    const by = (attribute) => new Map(Map.groupBy(all(`[${attribute}]`), (element) => element.getAttribute(attribute)));
    const runs = by('data-branch'), crosses = by('data-cross'), bars = by('data-bus');
    for (const [branch, role] of roles) {
        const run = runs.get(branch) || [], cross = crosses.get(branch) || [];
        if (run.length !== 1 || !(run[0].getTotalLength() > 0)) wrong.push(`branch ${branch} has ${run.length} elements`);
        if (cross.length !== (role === '2' ? 1 : 0)) wrong.push(`branch ${branch} of role ${role} has ${cross.length} crosses`);
        if (role === '2' && cross.length && run.length) onRun(cross[0], run[0], branch);
        if (run.length && (role === '2') !== run[0].hasAttribute('stroke-dasharray')) wrong.push(`dashes of branch ${branch}`);
    }
    if (all('[data-branch]').length !== roles.size) wrong.push('there are runs of branches that have no piece');

    function onRun(cross, run, branch) {
        const r = rect(cross), at = [(r.left + r.right) / 2, (r.top + r.bottom) / 2];
        const total = run.getTotalLength();
        let least = Infinity;
        for (let i = 0; i <= 500; i++) {
            const p = run.getPointAtLength(total * i / 500);
            least = Math.min(least, Math.hypot(p.x - at[0], p.y - at[1]));
        }
        if (least > total / 500 + 0.02) wrong.push(`the cross of branch ${branch} is ${least} mm off its run`);
    }

    // Nothing lies outside its page, no text is too small or on another.
    for (const page of [svg, ...index]) {
        const { width, height } = page.viewBox.baseVal;
        for (const element of all('path, rect, circle, text', page)) {
            const r = rect(element), rim = element.tagName === 'text' ? 0 : number(element, 'stroke-width') / 2;
            if (r.left - rim < -0.01 || r.top - rim < -0.01 || r.right + rim > width + 0.01 || r.bottom + rim > height + 0.01) {
                wrong.push(`${name(element)} lies outside the page`);
            }
        }
        // Numbers have no letters below the line, and rows may be close: they are measured by their digits.
        const texts = all('text', page).map((element) => {
            const r = rect(element), size = number(element, 'font-size'), y = number(element, 'y');
            if (size < 2.5) wrong.push(`'${name(element)}' is smaller than 2.5 mm`);
            return element.dataset.number === undefined ? { element, r } : { element, r: { ...r, top: y - 0.73 * size, bottom: y, height: 0.73 * size } };
        });
        texts.sort((a, b) => a.r.left - b.r.left);
        for (let i = 0; i < texts.length; i++) {
            for (let j = i + 1; j < texts.length && texts[j].r.left < texts[i].r.right; j++) {
                if (meet(texts[i].r, texts[j].r, 0.1)) wrong.push(`'${name(texts[i].element)}' overlaps '${name(texts[j].element)}'`);
            }
        }
        if (page === svg) inBoxes(texts);
    }

    // Texts that belong to a box stand in it or at it, and on no other.
    function inBoxes(texts) {
        const boxes = new Map(all('[data-station]').map((box) => [box.dataset.station, rect(box)]));
        for (const { element, r } of texts.filter(({ element }) => element.dataset.of !== undefined)) {
            const of = element.dataset.of, box = boxes.get(of), high = rect(element).height;
            const out = Math.max(box.left - r.left, r.right - box.right, box.top - r.top, r.bottom - box.bottom);
            if (meet(r, box, 0.05) && out > high) wrong.push(`'${name(element)}' overlaps its box's edge by ${out} mm`);
            const apart = Math.max(box.left - r.right, r.left - box.right, box.top - r.bottom, r.top - box.bottom);
            const most = element.dataset.outside ? 24 : led.has(of) ? 12 : 1.3 * high + 1;
            if (apart > most) wrong.push(`'${name(element)}' is ${apart} mm away from its box`);
            for (const [station, other] of boxes) {
                const own = element.dataset.number !== undefined;
                if (station !== of && meet(r, other, 0.05) && !(own && meet(box, other, -3))) wrong.push(`'${name(element)}' overlaps the box of station ${station}`);
            }
        }
    }

    // Numbers: at each end of a live run and beside each cross, at its own end, or counted as left out.
    const ends = [];
    for (const [branch, [run]] of runs) {
        const steps = run.getAttribute('d').split(/[ML]/).filter((step) => step).map((step) => step.split(' ').map(Number));
        [steps[0], steps[steps.length - 1]].forEach((at, end) => ends.push({ branch, end, at }));
    }
    const digits = all('[data-number]');
    const offRun = (at, points) => points.slice(1).reduce((least, q, i) => {
        const p = points[i], [x, y] = [q[0] - p[0], q[1] - p[1]];
        const part = Math.min(1, Math.max(0, ((at[0] - p[0]) * x + (at[1] - p[1]) * y) / (x * x + y * y || 1)));
        return Math.min(least, Math.hypot(p[0] + part * x - at[0], p[1] + part * y - at[1]));
    }, Infinity);
    const leaders = new Map(all('[data-leads-to]').map((line) => [line.dataset.leadsTo, line]));
    for (const element of digits.filter((element) => element.dataset.outside)) {
        const leader = leaders.get(`${element.dataset.number} ${element.dataset.end}`);
        if (leader) {
            const to = leader.getAttribute('d').split('L')[1].split(' ').map(Number);
            const own = ends.find((end) => end.branch === element.dataset.number && String(end.end) === element.dataset.end).at;
            if (Math.hypot(to[0] - own[0], to[1] - own[1]) > 0.02) wrong.push(`the line from '${name(element)}' ends elsewhere`);
            continue;
        }
        const r = rect(element), at = [(r.left + r.right) / 2, number(element, 'y') - 0.365 * number(element, 'font-size')];
        const d = runs.get(element.dataset.number)[0].getAttribute('d');
        const parts = d.split('M').filter((part) => part).map((part) => part.split('L').map((step) => step.split(' ').map(Number)));
        if (Math.min(...parts.map((points) => offRun(at, points))) > 0.3) wrong.push(`'${name(element)}' outside its box isn't on its run`);
    }
    for (const element of digits.filter((element) => element.dataset.end !== undefined && !element.dataset.outside)) {
        const at = [number(element, 'x'), number(element, 'y') - 0.365 * number(element, 'font-size')];
        const far = (end) => Math.hypot(end.at[0] - at[0], end.at[1] - at[1]);
        const least = ends.reduce((best, end) => Math.min(best, far(end)), Infinity);
        if (!ends.some((end) => end.branch === element.dataset.number && far(end) <= least + 0.01)) wrong.push(`'${name(element)}' stands at another end`);
    }
    const stations = new Map(all('[data-station]').map((box) => [box.dataset.station, rect(box)]));
    const has = (r, p) => r.left <= p[0] && p[0] <= r.right && r.top <= p[1] && p[1] <= r.bottom;
    const boxOf = ({ branch, end, at }) => {
        const bus = branches.length ? busOf.get(branches[branch][end ? 'to' : 'from']) : undefined;
        return bus ? String(names.indexOf(bus.substation)) : [...stations].find(([, r]) => has(r, at))[0];
    };
    for (const end of ends) end.station = boxOf(end);
    const ofBranch = Map.groupBy(ends, (end) => end.branch), both = (branch) => ofBranch.get(branch);
    let wanted = 0;
    for (const [branch, role] of roles) {
        const [a, b] = both(branch);
        wanted += role !== '2' ? 2 : a.station === b.station ? 1 : 3;
    }
    const block = all('#title-block text').map(name).join('\n');
    const lost = parseInt((block.match(/Numbers left out\n([\d,]+)/) || ['', '0'])[1].replaceAll(',', ''));
    if (digits.length !== wanted - lost) wrong.push(`there are ${digits.length} numbers, wanted ${wanted}, left out ${lost}`);

    // The cells of a table of the index by row: lines of one cell are joined.
    const cellsOf = (key) => {
        const rows = new Map();
        for (const element of [svg, ...index].flatMap((page) => all(`[data-${key}]`, page))) {
            const [row, column] = element.dataset[key].split(' ');
            if (!rows.has(row)) rows.set(row, []);
            const cells = rows.get(row);
            cells[column] = (cells[column] ? cells[column] + ' ' : '') + name(element);
        }
        return rows;
    };
    const same = (a, b) => a.replaceAll(/\s/g, '') === b.replaceAll(/\s/g, '');

    // Rows of boxes, counted from the top by where live runs end; an open one ends between two.
    const live = (end) => roles.get(end.branch) !== '2';
    for (const [, list] of Map.groupBy(ends, (end) => end.station)) {
        const heights = [...new Map(list.filter(live).map((end) => [end.branch, end.at[1]])).values()].sort((a, b) => a - b);
        for (const end of list) {
            const above = heights.filter((y) => y < end.at[1] - 0.005).length;
            end.row = live(end) ? `${above + 1}` : `${above}/${above + 1}`;
            end.heights = heights;
        }
    }

    // The index has every branch once, with its number as on the sheet, both buses, its squares and rows.
    const rows = cellsOf('index'), byRow = cellsOf('row');
    const grid = (letters, at) => {
        const marks = all('[data-grid]').filter((element) => /[A-H]/.test(name(element)) === letters);
        const { width, height } = svg.viewBox.baseVal, axis = letters !== height > width ? 1 : 0;
        const far = (element) => Math.abs(number(element, 'data-grid') - at[axis]);
        return name(marks.reduce((best, element) => (far(element) < far(best) ? element : best)));
    };
    const squares = new Map([...stations].map(([station, r]) => {
        const middle = [(r.left + r.right) / 2, (r.top + r.bottom) / 2];
        return [station, grid(true, middle) + grid(false, middle)];
    }));
    for (const element of digits) {
        if ((rows.get(element.dataset.number) || [])[0] !== name(element)) wrong.push(`'${name(element)}' isn't in the index`);
    }
    // Columns that only some networks have: isolators and bays.
    const hasAny = (name) => branches.some((row) => row[name]);
    const isolated = hasAny('from_switch') || hasAny('to_switch'), columnCount = 9 + isolated + hasAny('bay');
    for (const [branch, role] of roles) {
        const cells = rows.get(branch) || [], [a, b] = both(branch), row = branches[branch];
        const two = (one, other) => (a.station === b.station ? one : `${one}–${other}`);
        const isolators = row && isolated ? [row.from_switch, row.to_switch].map((text) => text || 'none').join(' – ') : '';
        const more = [isolators === 'none – none' ? '' : isolators, row && hasAny('bay') ? row.bay : ''];
        if (!same(cells.slice(9).join(''), more.join(''))) wrong.push(`branch ${branch} has the isolators and bay ${cells.slice(9)}`);
        if (row && row.kind && cells[5] !== row.kind.toLowerCase()) wrong.push(`branch ${branch} is a ${cells[5]} in the index`);
        if (cells.length > columnCount || cells.length < 9 || cells.slice(0, 9).some((cell) => !cell)) wrong.push(`branch ${branch} isn't whole in the index: ${cells}`);
        if (cells[6] !== (role === '2' ? 'open' : 'live')) wrong.push(`branch ${branch} is ${cells[6]} in the index`);
        if (cells[7] !== two(squares.get(a.station), squares.get(b.station))) wrong.push(`branch ${branch} stands in '${cells[7]}'`);
        const joined = a.station === b.station && a.row === b.row ? a.row : `${a.row}–${b.row}`;
        if (cells[8] !== joined) wrong.push(`branch ${branch} has the rows '${cells[8]}', not ${joined}`);
        if (row && !plain(row, cells)) wrong.push(`branch ${branch} is '${cells}' in the index`);
    }
    function plain(row, cells) {
        const odd = [row.name, row.from, row.to].some((text) => /[^\x21-\x7e ]/.test(text));
        return odd || (same(cells[1], row.name) && same(cells[2], row.from) && same(cells[3], row.to));
    }

    // Where an end has no number, its box is shaded in fives, and the index has its row.
    const shown = new Set(digits.map((element) => `${element.dataset.number} ${element.dataset.end ?? ''}`));
    const counted = new Set(all('[data-counted]').map((box) => box.dataset.station));
    const needed = new Set();
    for (const [branch, role] of roles) {
        const [a, b] = both(branch), inside = a.station === b.station;
        const without = (key) => !shown.has(`${branch} ${key}`);
        const atCross = role === '2' && without('');
        for (const end of [a, b]) {
            if (!atCross && ((role === '2' && inside) || !without(end.end))) continue;
            needed.add(end.station);
            const cells = byRow.get(`${end.station}:${branch}:${role !== '2' && inside ? 0 : end.end}`) || [];
            if (cells[0] !== end.row || cells[1] !== (rows.get(branch) || [])[0]) wrong.push(`row ${end.row} of station ${end.station} isn't that of branch ${branch} in the index: ${cells}`);
        }
    }
    if (needed.size !== counted.size || [...needed].some((station) => !counted.has(station))) wrong.push(`${counted.size} boxes are marked to be counted, not ${needed.size}`);
    const fiveOf = by('data-five');
    const headings = [svg, ...index].flatMap((page) => all('#index text[font-weight]', page)).map(name);
    const rowsOf = Map.groupBy([...byRow], ([key]) => key.split(':')[0]);
    for (const [station, list] of Map.groupBy(ends, (end) => end.station)) {
        const bands = (fiveOf.get(station) || []).map(rect).sort((a, b) => a.top - b.top), { heights } = list[0];
        if (!counted.has(station)) {
            if (bands.length) wrong.push(`station ${station} has bands`);
            continue;
        }
        const fives = heights.map((y, i) => [y, Math.floor(i / 5)]);
        const right = bands.every((band, i) => fives.every(([y, five]) => (band.top < y && y < band.bottom) === (five === 2 * i + 1)));
        if (!right || bands.length !== Math.floor(Math.ceil(heights.length / 5) / 2)) wrong.push(`the bands of station ${station} aren't its fives`);
        const listed = (rowsOf.get(station) || []).map(([, cells]) => cells[0]).filter((row) => !row.includes('/'));
        if (listed.join() !== heights.map((_, i) => i + 1).join()) wrong.push(`the rows of station ${station} in the index are ${listed}`);
        if (!headings.some((text) => text.endsWith(`, ${squares.get(station)}`))) wrong.push(`no heading in the index for station ${station}`);
    }
    if (counted.size && !/by row for shaded boxes|rows are too close to be counted/.test(block)) wrong.push('the sheet does not say how to find what has no number');

    // A box without a name, or without numbers, has its sign.
    const signs = new Set(all('[data-sign]').map((sign) => sign.dataset.sign));
    for (const box of all('[data-station]')) {
        const station = box.dataset.station, banded = fiveOf.has(station) || signs.has(`rows ${station}`);
        if (box.dataset.unnamed && !signs.has(`name ${station}`)) wrong.push(`station ${station} has no name and no sign`);
        if (box.dataset.counted && !banded) wrong.push(`station ${station} has no band and no sign`);
    }

    // Stretches: steps of a run that lie close to another for five millimetres and more belong to a marked pair.
    const wide = (branch) => (runs.get(branch)[0].hasAttribute('stroke-dasharray') ? 0 : Number(runs.get(branch)[0].getAttribute('stroke-width')));
    const far = (a, b) => Math.max(0.5, (wide(a) + wide(b)) / 2) - 0.05;
    const STEP = 0.25, near = new Map(), paths = new Map();
    const cell = (x, y) => `${Math.floor(x)} ${Math.floor(y)}`;
    for (const [branch, [run]] of runs) {
        const points = [];
        const steps = run.getAttribute('d').split('M').filter((part) => part).map((part) => part.split('L').map((step) => step.split(' ').map(Number)));
        for (const part of steps) {
            for (let i = 1; i < part.length; i++) {
                const [p, q] = [part[i - 1], part[i]], long = Math.hypot(q[0] - p[0], q[1] - p[1]), count = Math.max(1, Math.ceil(long / STEP));
                // A live run that goes on behind a gap begins anew.
                const anew = i === 1 && !runs.get(branch)[0].hasAttribute('stroke-dasharray');
                for (let s = 0; s < count; s++) points.push([p[0] + (q[0] - p[0]) * s / count, p[1] + (q[1] - p[1]) * s / count, long / count, anew && s === 0]);
            }
        }
        paths.set(branch, points);
        for (const p of points) {
            const key = cell(p[0], p[1]);
            if (!near.has(key)) near.set(key, []);
            near.get(key).push([p[0], p[1], branch]);
        }
    }
    const marked = new Set();
    for (const band of all('[data-stretch]')) {
        const list = band.dataset.branches.split(' ');
        for (const a of list) for (const b of list) if (a !== b) marked.add(`${a} ${b}`);
    }
    const seen = new Set();
    for (const [branch, points] of paths) {
        const lengths = new Map();
        for (const [x, y, long, anew] of points) {
            if (anew) lengths.clear();
            const here = new Set();
            for (let i = -1; i <= 1; i++) for (let j = -1; j <= 1; j++) {
                for (const [u, v, other] of near.get(cell(x + i, y + j)) || []) {
                    if (other !== branch && Math.hypot(u - x, v - y) <= far(branch, other)) here.add(other);
                }
            }
            for (const other of lengths.keys()) if (!here.has(other)) lengths.delete(other);
            for (const other of here) {
                lengths.set(other, (lengths.get(other) || 0) + long);
                // A stretch is measured along the first of its runs.
                if (lengths.get(other) >= 5.5 && Number(branch) < Number(other)) seen.add(`${branch} ${other}`);
            }
        }
    }
    for (const pair of seen) if (!marked.has(pair)) wrong.push(`branches ${pair} run as one stroke without a mark`);
    const said = (block.match(/Stretches as one stroke\n([\d,]+)/) || ['', ''])[1].replaceAll(',', '');
    if (said !== String(all('[data-stretch]').length)) wrong.push(`${said} stretches are counted`);
    const together = cellsOf('together');
    for (const band of all('[data-stretch]')) {
        const colours = new Set(band.dataset.branches.split(' ').map((branch) => runs.get(branch)[0].getAttribute('stroke')));
        const seen = new Set(all(`[data-shared="${band.dataset.stretch}"]`).map((element) => element.getAttribute('stroke')));
        if (colours.size > 1 && [...colours].some((colour) => !seen.has(colour))) wrong.push(`a colour of ${band.dataset.branches} isn't seen`);
        const numbers = band.dataset.branches.split(' ').map((branch) => (rows.get(branch) || [])[0]);
        if (!same((together.get(band.dataset.stretch) || [''])[0], numbers.join(', '))) wrong.push(`the circuits ${numbers} aren't together in the index`);
        const label = all(`[data-mark="${band.dataset.stretch}"]`).map(name).join(' ');
        const words = `${numbers.length} circuits ${numbers.slice(0, 4).join(', ')}${numbers.length > 4 ? ', …' : ''}`;
        if (label && label !== words) wrong.push(`'${label}' stands for '${words}'`);
    }

    // Labels of one box differ, and what isn't shown in full is listed.
    const labels = new Set();
    for (const element of all('[data-label]')) {
        const key = `${element.dataset.of} ${name(element)}`;
        if (labels.has(key)) wrong.push(`two bars of a box are called '${name(element)}'`);
        labels.add(key);
    }
    const full = cellsOf('full');
    const labelled = new Map(all('[data-label]').map((element) => [element.dataset.label, name(element)]));
    for (const bar of all('[data-bus]')) {
        const label = labelled.get(bar.dataset.bus), cells = full.get(`b${bar.dataset.bus}`);
        if ((label === undefined || label.includes('…') || label.startsWith('#')) && !cells) wrong.push(`bus ${bar.dataset.bus} isn't listed in full`);
        if (cells && !same(cells.at(-1), bar.querySelector('title').textContent)) wrong.push(`bus ${bar.dataset.bus} is listed as '${cells.at(-1)}'`);
        if (cells && !same(cells[1], label ?? 'left out')) wrong.push(`'${label}' is listed as '${cells[1]}'`);
    }
    const named = new Set(all('#station-names text').map((element) => element.dataset.of));
    for (const box of all('[data-station]')) {
        const cells = full.get(`s${box.dataset.station}`), title = box.querySelector('title').textContent;
        if (!named.has(box.dataset.station) && !cells) wrong.push(`station ${box.dataset.station} isn't listed in full`);
        if (cells && (!same(cells.at(-1), title) || cells[0] !== squares.get(box.dataset.station))) wrong.push(`station ${box.dataset.station} is listed as '${cells}'`);
    }

    // Colours are those of the voltages, and two that are as light in greyscale have different cores.
    const table = { 400: '#1d1a6b', 275: '#0f6e7d', 220: '#7a3320', 132: '#3a0a3f', 110: '#2e7d32', 66: '#17468f', 33: '#6f9a1c', 22: '#5a4a00', 11: '#b45f06', 6.6: '#8a5fa8', 3.3: '#b08d57' };
    const colourOf = (kv) => table[kv] || (kv < 1 ? '#9a8f86' : '#10352a');
    const styles = new Map();
    buses.forEach(({ kv }, i) => {
        const bar = bars.get(String(i))[0], next = bar.nextElementSibling, colour = bar.getAttribute('stroke');
        if (colour !== colourOf(parseFloat(kv))) wrong.push(`bar ${i} hasn't its voltage's colour`);
        const core = next && !next.hasAttribute('data-bus') && next.getAttribute('d') === bar.getAttribute('d') ? next.getAttribute('stroke-dasharray') || 'whole' : 'none';
        styles.set(parseFloat(kv), { colour, core });
    });
    const light = (hex) => {
        const [r, g, b] = [1, 3, 5].map((i) => parseInt(hex.slice(i, i + 2), 16) / 255).map((c) => (c <= 0.04045 ? c / 12.92 : ((c + 0.055) / 1.055) ** 2.4));
        return 116 * Math.cbrt(0.2126 * r + 0.7152 * g + 0.0722 * b) - 16;
    };
    for (const [kv, { colour, core }] of styles) for (const [other, look] of styles) {
        if (kv < other && table[kv] && table[other] && core === look.core && Math.abs(light(colour) - light(look.colour)) < 10) wrong.push(`${kv} and ${other} kV look alike in greyscale`);
    }
    branches.forEach(({ from, to }, i) => {
        const run = (runs.get(String(i)) || [])[0], kv = [from, to].map((bus) => parseFloat(busOf.get(bus).kv));
        if (run && run.getAttribute('stroke') !== (kv[0] === kv[1] ? colourOf(kv[0]) : '#1a1a1a')) wrong.push(`run ${i} hasn't its voltage's colour`);
    });

    const source = new DOMParser().parseFromString(document.getElementById('source').textContent.trim(), 'image/svg+xml');
    if (source.querySelector('parsererror')) wrong.push('the sheet is no well-formed XML');
    for (const page of [svg, ...index]) {
        const ids = all('[id]', page).map((element) => element.id);
        if (new Set(ids).size !== ids.length) wrong.push('an id is given twice');
        if (all('script, image, use, foreignObject, style, a', page).length) wrong.push('there is more than plain shapes');
    }
    if (all('[data-branch], [data-bus], [data-station]').some((element) => !element.querySelector('title'))) wrong.push('a title is missing');

    const counts = `${roles.size} runs, ${all('[data-cross]').length} crosses, ${stations.size} boxes, ${all('[data-bus]').length} bars, ${digits.length} of ${wanted} numbers, ${counted.size} boxes by row, ${all('[data-stretch]').length} stretches, ${index.length} pages of the index`;
    document.getElementById('found').textContent = wrong.length ? `${wrong.length} wrong: ${wrong.slice(0, 20).join('; ')}` : `ok: ${counts}`;
})();
