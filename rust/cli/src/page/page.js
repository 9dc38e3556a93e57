'use strict';
(() => {
  const $ = (id) => document.getElementById(id);
  const root = document.documentElement;
  const data = JSON.parse($('data').textContent);

  // Little-endian numbers in base64.
  const unpack = (text) => {
    const raw = atob(text);
    const out = new Uint8Array(raw.length);
    for (let at = 0; at < raw.length; at++) out[at] = raw.charCodeAt(at);
    return out.buffer;
  };
  // Names, each with the length that it shares with the one before.
  const names = (text) => {
    let last = '';
    return text === '' ? [] : text.slice(0, -1).split('\n').map((line) => {
      const space = line.indexOf(' ');
      last = last.slice(0, Number(line.slice(0, space))) + line.slice(space + 1);
      return last;
    });
  };

  const legs = new Uint32Array(unpack(data.legs)); // the bits of six f32 a leg
  const count = legs.length / 6;
  // Runs of legs that have these in common; a day of -1 is no date.
  const [flags, styles, days, surveyOf] = [Uint8Array, Uint8Array, Int32Array, Uint32Array].map((kind) => new kind(count));
  const runs = new Int32Array(unpack(data.runs));
  for (let run = 0, leg = 0; run < runs.length; run += 5) {
    const end = leg + runs[run];
    [flags, styles, days, surveyOf].forEach((list, part) => list.fill(runs[run + 1 + part], leg, end));
    leg = end;
  }
  const surveys = names(data.surveys);
  const stations = names(data.names);
  const places = new Int32Array(unpack(data.places)); // centimetres
  const stationFlags = new Uint8Array(unpack(data.station_flags));
  const origin = data.origin;
  const least = data.least.map((number, axis) => number - origin[axis]);
  const greatest = data.greatest.map((number, axis) => number - origin[axis]);
  const entrances = [];
  stationFlags.forEach((flag, at) => { if (flag & 4) entrances.push(at); });

  // ---- where one looks from: bearing and tilt in radians, pixels a centimetre
  const DEGREE = Math.PI / 180;
  const view = { bearing: 20 * DEGREE, tilt: 35 * DEGREE, centre: [0, 0, 0], zoom: 1 };
  const stage = $('stage');
  const size = () => [stage.clientWidth || 1, stage.clientHeight || 1];
  const axes = () => {
    const [sb, cb, st, ct] = [Math.sin(view.bearing), Math.cos(view.bearing), Math.sin(view.tilt), Math.cos(view.tilt)];
    return { right: [cb, -sb, 0], up: [sb * st, cb * st, ct], near: [-sb * ct, -cb * ct, st] };
  };
  const dot = (a, b) => a[0] * b[0] + a[1] * b[1] + a[2] * b[2];
  const place = (station) => [0, 1, 2].map((axis) => places[3 * station + axis] - origin[axis]);
  const onScreen = (point, { right, up }) => {
    const from = point.map((number, axis) => number - view.centre[axis]);
    const [wide, high] = size();
    return [wide / 2 + dot(from, right) * view.zoom, high / 2 - dot(from, up) * view.zoom];
  };
  const fitted = (way) => {
    const before = [view.bearing, view.tilt];
    [view.bearing, view.tilt] = way;
    const { right, up } = axes();
    [view.bearing, view.tilt] = before;
    const half = greatest.map((number, axis) => (number - least[axis]) / 2 || 0);
    const reach = (axis) => half.reduce((sum, number, at) => sum + number * Math.abs(axis[at]), 0) * 2;
    const [wide, high] = size();
    const room = wide > 640 ? [wide - 40, high - 60] : [wide, high - 240];
    const zoom = Math.min(room[0] / Math.max(reach(right), 100), room[1] / Math.max(reach(up), 100)) * 0.92;
    return { zoom, centre: least.map((number, axis) => (number + greatest[axis]) / 2) };
  };

  // ---- drawing: one buffer, one call. A leg is a strip of four corners, or one of very many thin lines.
  const thin = count > 100000;
  const VERTEX = `#version 300 es
    layout(location = 0) in vec3 first;
    layout(location = 1) in vec3 last;
    layout(location = 2) in vec4 paint;
    uniform mat3 turn;
    uniform vec3 centre;
    uniform vec2 scale, pixel;
    uniform float wide, radius, thin;
    uniform vec2 heights;
    out vec3 colour;
    out float height, far;
    void main() {
      vec3 a = turn * (first - centre), b = turn * (last - centre);
      vec2 along = (b.xy - a.xy) * scale / pixel;
      float size = length(along);
      vec2 way = size > 0.001 ? along / size : vec2(1.0, 0.0);
      float end = thin > 0.5 ? 0.0 : float(gl_VertexID / 2);
      float side = float(gl_VertexID % 2) * 2.0 - 1.0;
      vec3 at = mix(first, last, end);
      vec2 aside = (vec2(-way.y, way.x) * side + way * (end * 2.0 - 1.0) * 0.5) * wide * paint.a * 0.5 * (1.0 - thin);
      far = clamp(0.5 - dot(vec3(turn[0][2], turn[1][2], turn[2][2]), at) / radius * 0.5, 0.0, 1.0);
      gl_Position = vec4(mix(a.xy, b.xy, end) * scale + aside * pixel, far * 1.9 - 0.95, 1.0);
      if (paint.a == 0.0) gl_Position = vec4(2.0, 2.0, 2.0, 1.0);
      height = (at.z - heights.x) * heights.y;
      colour = paint.rgb;
    }`;
  const FRAGMENT = `#version 300 es
    precision highp float;
    uniform vec3 stops[6];
    uniform vec3 paper;
    uniform float ramp;
    in vec3 colour;
    in float height, far;
    out vec4 result;
    void main() {
      float at = clamp(height, 0.0, 1.0) * 5.0;
      int low = int(min(at, 4.0));
      vec3 deep = mix(stops[low], stops[low + 1], at - float(low));
      result = vec4(mix(mix(colour, deep, ramp), paper, far * 0.4), 1.0);
    }`;
  const canvas = $('cave');
  const gl = canvas.getContext('webgl2', { antialias: !thin, alpha: false });
  root.classList.toggle('gl', Boolean(gl));
  if (!gl) return;
  // Both ends and a colour; of a thin line each end has the colour.
  const stride = thin ? 8 : 7;
  const words = new Uint32Array(stride * count);
  for (let leg = 0; leg < count; leg++) {
    for (let part = 0; part < 6; part++) words[stride * leg + part + (thin && part > 2 ? 1 : 0)] = legs[6 * leg + part];
  }
  let uniform;
  const compile = () => {
    const program = gl.createProgram();
    for (const [kind, text] of [[gl.VERTEX_SHADER, VERTEX], [gl.FRAGMENT_SHADER, FRAGMENT]]) {
      const shader = gl.createShader(kind);
      gl.shaderSource(shader, text);
      gl.compileShader(shader);
      gl.attachShader(program, shader);
    }
    gl.linkProgram(program);
    if (!gl.getProgramParameter(program, gl.LINK_STATUS) && !gl.isContextLost()) {
      throw new Error(gl.getProgramInfoLog(program));
    }
    gl.useProgram(program);
    uniform = (name) => gl.getUniformLocation(program, name);
    gl.bindBuffer(gl.ARRAY_BUFFER, gl.createBuffer());
    const each = thin ? [[0, 3, gl.FLOAT, 0], [2, 4, gl.UNSIGNED_BYTE, 12]]
      : [[0, 3, gl.FLOAT, 0], [1, 3, gl.FLOAT, 12], [2, 4, gl.UNSIGNED_BYTE, 24]];
    each.forEach(([at, parts, type, offset]) => {
      gl.enableVertexAttribArray(at);
      gl.vertexAttribPointer(at, parts, type, type !== gl.FLOAT, thin ? 16 : 28, offset);
      gl.vertexAttribDivisor(at, thin ? 0 : 1);
    });
    gl.enable(gl.DEPTH_TEST);
    gl.depthFunc(gl.LEQUAL);
  };

  // ---- colours
  const RAMP = ['#7a5cd6', '#3f7fd0', '#1fa39a', '#74b843', '#e8a92c', '#e2582f'];
  const parts = (hex) => [1, 3, 5].map((at) => parseInt(hex.slice(at, at + 2), 16));
  const dark = () => root.dataset.theme === 'dark';
  const GREY = '#8b979d';
  const STYLES = [['normal', '#3f7fd0'], ['diving', '#1fa39a'], ['cartesian', '#e8a92c'], ['cylpolar', '#b35fc4'],
    ['nosurvey', '#e2582f'], ['not said', GREY]];
  const mixed = (share) => {
    const at = Math.min(Math.max(share, 0), 1) * 5;
    const low = Math.min(Math.floor(at), 4);
    const [a, b] = [parts(RAMP[low]), parts(RAMP[low + 1])];
    return '#' + a.map((number, part) => Math.round(number + (b[part] - number) * (at - low)).toString(16).padStart(2, '0')).join('');
  };
  const civil = (day) => new Date(Date.UTC(1900, 0, 1 + day)).toISOString().slice(0, 10);
  // Surveys go together by the first part of their names in which they differ.
  const groups = (() => {
    const split = surveys.map((name) => name.split('.'));
    let depth = 0;
    while (split.length && split.every((name) => name.length > depth + 1 && name[depth] === split[0][depth])) depth++;
    const found = new Map();
    const of = split.map((name) => {
      const key = name.slice(0, depth + 1).join('.');
      if (!found.has(key)) found.set(key, { name: key || 'no survey', legs: 0, number: found.size });
      return found.get(key);
    });
    surveyOf.forEach((survey) => { of[survey].legs++; });
    return { of, all: [...found.values()] };
  })();
  const hue = (number) => {
    const [h, s, l] = [(number * 137.508 + 205) % 360, 0.52, dark() ? 0.64 : 0.43];
    const part = (n) => {
      const k = (n + h / 30) % 12;
      return Math.round(255 * (l - s * Math.min(l, 1 - l) * Math.max(-1, Math.min(k - 3, 9 - k, 1)))).toString(16).padStart(2, '0');
    };
    return '#' + part(0) + part(8) + part(4);
  };
  const firstDay = days.reduce((low, day) => (day >= 0 && day < low ? day : low), 65536);
  const lastDay = days.reduce((high, day) => Math.max(high, day), -1);
  const shown = { 1: true, 4: true };
  // What a colour goes by, and the colour.
  const paints = {
    depth: [() => 0, () => GREY],
    survey: [(leg) => groups.of[surveyOf[leg]].number, hue],
    date: [(leg) => days[leg], (day) => (day < 0 ? GREY : mixed((day - firstDay) / (lastDay - firstDay || 1)))],
    style: [(leg) => styles[leg], (style) => STYLES[style][1]],
  };
  const width = (flag) => {
    if ((flag & 1 && !shown[1]) || (flag & 4 && !shown[4])) return 0;
    return flag & 4 ? 110 : flag & 1 ? 150 : 255;
  };
  const paint = () => {
    const known = new Map();
    const [key, colour] = paints[$('by').value];
    for (let leg = 0; leg < count; leg++) {
      const by = key(leg);
      let rgb = known.get(by);
      if (rgb === undefined) {
        const [red, green, blue] = parts(colour(by));
        known.set(by, rgb = red | green << 8 | blue << 16);
      }
      words[stride * leg + stride - 1] = rgb | width(flags[leg]) << 24;
      if (thin) words[stride * leg + 3] = words[stride * leg + 7];
    }
    gl.bufferData(gl.ARRAY_BUFFER, words, gl.STATIC_DRAW);
    legend();
    draw();
  };
  const metres = (centimetres) => (centimetres / 100).toFixed(2);
  const make = (name, text, more) => Object.assign(document.createElement(name), { textContent: text || '' }, more);
  const swatch = (colour, text) => {
    const item = make('li');
    const mark = make('i');
    mark.style.background = colour;
    item.append(mark, make('span', text));
    return item;
  };
  const rampItem = (low, high) => {
    const item = swatch(`linear-gradient(90deg, ${RAMP.join(', ')})`, '');
    item.className = 'ramp';
    item.lastChild.append(make('span', low), make('span', high));
    return item;
  };
  const legend = () => {
    const items = [];
    const by = $('by').value;
    if (by === 'depth') items.push(rampItem(`${metres(data.least[2])} m`, `${metres(data.greatest[2])} m`));
    if (by === 'survey') {
      const most = [...groups.all].sort((a, b) => b.legs - a.legs || a.number - b.number);
      most.slice(0, 12).forEach((group) => items.push(swatch(hue(group.number), `${group.name} (${group.legs})`)));
      if (most.length > 12) items.push(make('li', `and ${most.length - 12} more`));
    }
    if (by === 'date') {
      if (lastDay >= 0) items.push(rampItem(civil(firstDay), civil(lastDay)));
      if (days.includes(-1)) items.push(swatch(GREY, 'no date'));
    }
    if (by === 'style') {
      STYLES.forEach(([name, colour], style) => { if (styles.includes(style)) items.push(swatch(colour, name)); });
    }
    $('colours').replaceChildren(...items);
  };
  for (const [bit, name] of [[1, 'surface'], [4, 'splays']]) {
    if (!flags.some((flag) => flag & bit)) continue;
    const box = make('input', '', { type: 'checkbox', checked: true });
    box.addEventListener('change', () => { shown[bit] = box.checked; paint(); });
    const label = make('label');
    label.append(box, ` ${name}`);
    $('kinds').append(label);
  }

  // ---- a frame
  let waiting = 0, still = 0;
  const draw = () => { waiting = waiting || requestAnimationFrame(frame); };
  const css = (name) => getComputedStyle(root).getPropertyValue(name).trim();
  const sharp = () => Math.min(window.devicePixelRatio || 1, 2);
  const resize = () => {
    const [wide, high] = size();
    for (const each of [canvas, $('over')]) {
      const want = [Math.round(wide * sharp()), Math.round(high * sharp())];
      if (each.width !== want[0] || each.height !== want[1]) [each.width, each.height] = want;
    }
  };
  const frame = () => {
    waiting = 0;
    resize();
    const { right, up, near } = axes();
    const paper = parts(css('--paper')).map((number) => number / 255);
    const radius = Math.hypot(...greatest.map((number, axis) => Math.max(number, -least[axis]))) || 1;
    gl.viewport(0, 0, canvas.width, canvas.height);
    gl.clearColor(...paper, 1);
    gl.clear(gl.COLOR_BUFFER_BIT | gl.DEPTH_BUFFER_BIT);
    gl.uniformMatrix3fv(uniform('turn'), false, [0, 1, 2].flatMap((axis) => [right[axis], up[axis], near[axis]]));
    gl.uniform3fv(uniform('centre'), view.centre);
    gl.uniform2f(uniform('scale'), 2 * view.zoom * sharp() / canvas.width, 2 * view.zoom * sharp() / canvas.height);
    gl.uniform2f(uniform('pixel'), 2 / canvas.width, 2 / canvas.height);
    gl.uniform1f(uniform('wide'), 2 * sharp());
    gl.uniform1f(uniform('radius'), radius);
    gl.uniform2f(uniform('heights'), least[2], 1 / Math.max(greatest[2] - least[2], 1));
    gl.uniform3fv(uniform('stops'), RAMP.flatMap((hex) => parts(hex).map((number) => number / 255)));
    gl.uniform3fv(uniform('paper'), paper);
    gl.uniform1f(uniform('ramp'), $('by').value === 'depth' ? 1 : 0);
    gl.uniform1f(uniform('thin'), thin ? 1 : 0);
    if (thin) gl.drawArrays(gl.LINES, 0, 2 * count);
    else gl.drawArraysInstanced(gl.TRIANGLE_STRIP, 0, 4, count);
    over(false);
    status();
    clearTimeout(still);
    still = setTimeout(() => over(true), 120);
  };
  const status = () => {
    const turn = Math.round(view.bearing / DEGREE);
    const bearing = String(((turn % 360) + 360) % 360).padStart(3, '0');
    const tilt = Math.round(view.tilt / DEGREE);
    $('status').textContent = `looking ${bearing}°, ${Math.abs(tilt)}° ${tilt < 0 ? 'up' : 'down'}`;
    const most = 140 / view.zoom;
    let long = 1;
    for (let power = 1; power <= most; power *= 10) for (const step of [1, 2, 5]) if (step * power <= most) long = step * power;
    $('bar').firstElementChild.style.width = `${long * view.zoom}px`;
    $('bar').lastElementChild.textContent = long >= 100000 ? `${long / 100000} km` : `${long / 100} m`;
  };

  // ---- what lies over the legs: entrances, names, what was chosen, north
  const chosen = [];
  const over = (calm) => {
    const [wide, high] = size();
    const pen = $('over').getContext('2d');
    pen.setTransform(sharp(), 0, 0, sharp(), 0, 0);
    pen.clearRect(0, 0, wide, high);
    pen.font = '12px system-ui, "DejaVu Sans", sans-serif';
    pen.textBaseline = 'middle';
    const around = axes();
    const taken = new Set();
    const name = (station, colour, must) => {
      const [x, y] = onScreen(place(station), around);
      const text = stations[station];
      if (x < -200 || y < -20 || x > wide + 20 || y > high + 20) return false;
      const cells = [];
      for (let at = Math.floor(x / 10); at <= (x + pen.measureText(text).width + 14) / 10; at++) {
        for (let row = Math.floor((y - 8) / 8); row <= (y + 8) / 8; row++) cells.push(`${at} ${row}`);
      }
      if (!must && cells.some((cell) => taken.has(cell))) return false;
      cells.forEach((cell) => taken.add(cell));
      pen.lineWidth = 3;
      pen.strokeStyle = css('--paper');
      pen.strokeText(text, x + 9, y);
      pen.fillStyle = colour;
      pen.fillText(text, x + 9, y);
      return true;
    };
    if (chosen.length === 2) tape(pen, around);
    chosen.forEach((station) => {
      const [x, y] = onScreen(place(station), around);
      pen.beginPath();
      pen.arc(x, y, 7, 0, 7);
      pen.lineWidth = 2;
      pen.strokeStyle = css('--strong');
      pen.stroke();
      name(station, css('--ink'), true);
    });
    const red = css('--entrance');
    entrances.forEach((station) => {
      const [x, y] = onScreen(place(station), around);
      pen.beginPath();
      pen.moveTo(x, y - 6);
      pen.lineTo(x + 5.5, y + 4);
      pen.lineTo(x - 5.5, y + 4);
      pen.fillStyle = red;
      pen.fill();
    });
    entrances.slice(0, 400).forEach((station) => { if (!chosen.includes(station)) name(station, red, false); });
    if (calm && named()) {
      let left = 400;
      const faint = css('--faint');
      for (let at = 0; at < stations.length && left > 0; at++) if (!chosen.includes(at) && name(at, faint, false)) left--;
    }
    north(pen, around, [wide - 56, wide > 640 ? 118 : 190]);
  };
  const tape = (pen, around) => {
    const [from, to] = chosen.map((station) => onScreen(place(station), around));
    pen.beginPath();
    pen.moveTo(...from);
    pen.lineTo(...to);
    pen.setLineDash([6, 4]);
    pen.lineWidth = 2;
    pen.strokeStyle = css('--strong');
    pen.stroke();
    pen.setLineDash([]);
  };
  const north = (pen, { right, up }, [x, y]) => {
    const [east, rise] = [right[1] * 26, up[1] * 26];
    pen.beginPath();
    pen.moveTo(x - east, y + rise);
    pen.lineTo(x + east, y - rise);
    pen.lineWidth = 2;
    pen.strokeStyle = pen.fillStyle = css('--faint');
    pen.stroke();
    pen.beginPath();
    pen.arc(x + east, y - rise, 3, 0, 7);
    pen.fill();
    pen.fillText('N', x + east * 1.5 - 4, y - rise * 1.5);
  };

  // ---- moving: at once, or in a third of a second
  const calm = matchMedia('(prefers-reduced-motion: reduce)');
  let moving = 0;
  const go = (to) => {
    cancelAnimationFrame(moving);
    const from = { ...view, centre: [...view.centre] };
    const target = { ...from, ...to };
    const turn = target.bearing - from.bearing;
    target.bearing -= Math.round(turn / (2 * Math.PI)) * 2 * Math.PI;
    const start = performance.now();
    const step = (now) => {
      const part = calm.matches ? 1 : Math.min((now - start) / 350, 1);
      const share = part * part * (3 - 2 * part);
      for (const key of ['bearing', 'tilt']) view[key] = from[key] + (target[key] - from[key]) * share;
      view.zoom = from.zoom * (target.zoom / from.zoom) ** share;
      view.centre = from.centre.map((number, axis) => number + (target.centre[axis] - number) * share);
      if (part === 1) Object.assign(view, target);
      draw();
      if (part < 1) moving = requestAnimationFrame(step);
    };
    if (calm.matches) step(start); else moving = requestAnimationFrame(step);
  };
  const turn = (across, down) => {
    cancelAnimationFrame(moving);
    view.bearing += across;
    view.tilt = Math.min(Math.max(view.tilt + down, -Math.PI / 2), Math.PI / 2);
    draw();
  };
  const pan = (across, down) => {
    cancelAnimationFrame(moving);
    const { right, up } = axes();
    view.centre = view.centre.map((number, axis) => number + (up[axis] * down - right[axis] * across) / view.zoom);
    draw();
  };
  const zoom = (factor, x, y) => {
    cancelAnimationFrame(moving);
    const [wide, high] = size();
    const { right, up } = axes();
    const next = Math.min(Math.max(view.zoom * factor, 1e-7), 50);
    const gain = 1 / view.zoom - 1 / next;
    const [across, rise] = [x - wide / 2, high / 2 - y];
    view.centre = view.centre.map((number, axis) => number + (right[axis] * across + up[axis] * rise) * gain);
    view.zoom = next;
    draw();
  };
  const look = (bearing, tilt) => go({ bearing, tilt, ...fitted([bearing, tilt]) });
  const plan = () => look(0, Math.PI / 2);
  const side = () => look(view.bearing, 0);
  const fit = () => look(view.bearing, view.tilt);
  const toNorth = () => go({ bearing: 0 });

  // ---- stations: chosen by a click or a search, measured between two
  const WORDS = [[4, 'entrance'], [16, 'fixed'], [8, 'exported'], [1, 'on the surface'], [2, 'underground']];
  const pressed = (id) => $(id).getAttribute('aria-pressed') === 'true';
  const press = (id, value) => $(id).setAttribute('aria-pressed', String(value));
  const named = () => pressed('named');
  const choose = (station) => {
    if (pressed('tape') && chosen.length > 0) chosen.splice(1, 1, station);
    else chosen.splice(0, 2, station);
    tell();
    draw();
  };
  const none = () => { chosen.length = 0; press('tape', false); tell(); draw(); };
  const rows = (pairs) => {
    const list = make('dl');
    pairs.forEach(([word, value]) => list.append(make('dt', word), make('dd', value)));
    return list;
  };
  const described = (station) => {
    const same = [];
    const at = (other, axis) => places[3 * other + axis];
    for (let other = 0; other < stations.length && same.length < 6; other++) {
      if (other !== station && [0, 1, 2].every((axis) => at(other, axis) === at(station, axis))) same.push(stations[other]);
    }
    const kinds = WORDS.filter(([bit]) => stationFlags[station] & bit).map(([, word]) => word);
    const out = [make('h2', stations[station])];
    if (same.length) out.push(make('p', `also ${same.join(', ')}`));
    if (kinds.length) out.push(make('p', kinds.join(', ')));
    out.push(rows(['east', 'north', 'up'].map((word, axis) => [word, `${metres(at(station, axis))} m`])));
    return out;
  };
  const between = ([from, to]) => {
    const [x, y, z] = [0, 1, 2].map((axis) => places[3 * to + axis] - places[3 * from + axis]);
    const bearing = ((Math.atan2(x, y) / DEGREE + 360) % 360).toFixed(1);
    return rows([
      ['straight', `${metres(Math.hypot(x, y, z))} m`],
      ['level', `${metres(Math.hypot(x, y))} m`],
      ['up', `${metres(z)} m`],
      ['bearing', x || y ? `${bearing}°` : 'none'],
    ]);
  };
  const tell = () => {
    const info = $('info');
    info.hidden = chosen.length === 0;
    info.replaceChildren(...chosen.flatMap(described));
    if (chosen.length === 2) info.append(make('h2', 'From the one to the other'), between(chosen));
    if (chosen.length === 1 && pressed('tape')) info.append(make('p', 'Choose another station to measure to.'));
  };
  const pick = (x, y, room) => {
    const around = axes();
    const [wide, high] = size();
    const base = [dot(view.centre, around.right), dot(view.centre, around.up)];
    const shift = [dot(origin, around.right) + base[0], dot(origin, around.up) + base[1]];
    let best = -1, near = room * room, front = -Infinity;
    for (let at = 0; at < stations.length; at++) {
      const point = [places[3 * at], places[3 * at + 1], places[3 * at + 2]];
      const dx = wide / 2 + (dot(point, around.right) - shift[0]) * view.zoom - x;
      const dy = high / 2 - (dot(point, around.up) - shift[1]) * view.zoom - y;
      const away = Math.round(dx * dx + dy * dy);
      const depth = dot(point, around.near);
      if (away < near || (away === near && depth > front)) [best, near, front] = [at, away, depth];
    }
    return best;
  };

  // ---- mouse and touch
  const fingers = new Map();
  let moved = 0, button = 0;
  const here = (event) => [event.clientX, event.clientY];
  canvas.addEventListener('pointerdown', (event) => {
    canvas.setPointerCapture(event.pointerId);
    if (fingers.size === 0) [moved, button] = [0, event.button];
    fingers.set(event.pointerId, here(event));
  });
  canvas.addEventListener('pointermove', (event) => {
    const last = fingers.get(event.pointerId);
    if (!last) return;
    const now = here(event);
    const [across, down] = [now[0] - last[0], now[1] - last[1]];
    moved += Math.abs(across) + Math.abs(down);
    fingers.set(event.pointerId, now);
    if (fingers.size === 2) {
      const [other] = [...fingers].filter(([id]) => id !== event.pointerId).map(([, at]) => at);
      const apart = (at) => Math.hypot(at[0] - other[0], at[1] - other[1]) || 1;
      zoom(apart(now) / apart(last), (now[0] + other[0]) / 2, (now[1] + other[1]) / 2);
      pan(across / 2, down / 2);
    } else if (fingers.size === 1 && moved > 4) {
      if (button !== 0 || event.shiftKey || event.ctrlKey) pan(across, down);
      else turn(across * 0.4 * DEGREE, down * 0.4 * DEGREE);
    }
  });
  const lifted = (event) => {
    if (!fingers.delete(event.pointerId) || event.type === 'pointercancel') return;
    if (fingers.size > 0 || moved > 4 || button !== 0) return;
    const station = pick(...here(event), event.pointerType === 'mouse' ? 14 : 26);
    if (station >= 0) choose(station); else none();
  };
  canvas.addEventListener('pointerup', lifted);
  canvas.addEventListener('pointercancel', lifted);
  canvas.addEventListener('contextmenu', (event) => event.preventDefault());
  canvas.addEventListener('wheel', (event) => {
    event.preventDefault();
    zoom(Math.exp(-event.deltaY * (event.deltaMode ? 0.05 : 0.0015)), ...here(event));
  }, { passive: false });

  // ---- keys
  const theme = () => { root.dataset.theme = dark() ? 'light' : 'dark'; paint(); };
  const toggle = (id) => { press(id, !pressed(id)); tell(); draw(); };
  const keys = {
    p: plan, e: side, r: fit, Home: fit, n: toNorth, t: theme, Escape: none,
    m: () => toggle('tape'), l: () => toggle('named'), '/': () => $('find').focus(),
    '+': () => zoom(1.25, ...size().map((side) => side / 2)), '=': () => zoom(1.25, ...size().map((side) => side / 2)),
    '-': () => zoom(0.8, ...size().map((side) => side / 2)),
  };
  const arrows = { ArrowLeft: [-1, 0], ArrowRight: [1, 0], ArrowUp: [0, -1], ArrowDown: [0, 1] };
  addEventListener('keydown', (event) => {
    if (event.target.closest('input, select') || event.ctrlKey || event.metaKey || event.altKey) return;
    const arrow = arrows[event.key];
    const key = keys[event.key.length === 1 ? event.key.toLowerCase() : event.key];
    if (arrow && event.shiftKey) pan(-40 * arrow[0], -40 * arrow[1]);
    else if (arrow) turn(5 * DEGREE * arrow[0], 5 * DEGREE * arrow[1]);
    else if (key) key();
    else return;
    event.preventDefault();
  });

  // ---- search
  let low = null, at = 0, hits = [];
  const matches = (text) => {
    low = low || stations.map((name) => name.toLowerCase());
    const want = text.trim().toLowerCase();
    const found = [];
    if (want === '') return found;
    for (let station = 0; station < low.length; station++) {
      const where = low[station].indexOf(want);
      if (where < 0) continue;
      const whole = low[station] === want ? 0 : low[station].endsWith(`.${want}`) ? 1 : 2;
      found.push([whole, where, station]);
      if (found.length > 5000) break;
    }
    found.sort((a, b) => a[0] - b[0] || a[1] - b[1] || a[2] - b[2]);
    return found.slice(0, 20).map(([, , station]) => station);
  };
  const list = () => {
    $('found').hidden = hits.length === 0;
    $('found').replaceChildren(...hits.map((station, number) => {
      const item = make('li', stations[station]);
      item.setAttribute('aria-selected', String(number === at));
      item.addEventListener('pointerdown', (event) => { event.preventDefault(); take(station); });
      return item;
    }));
  };
  const take = (station) => {
    choose(station);
    go({ centre: place(station), zoom: Math.max(view.zoom, 0.05) });
    hits = [];
    list();
    canvas.focus();
  };
  $('find').addEventListener('input', () => { hits = matches($('find').value); at = 0; list(); });
  $('find').addEventListener('keydown', (event) => {
    if (event.key === 'Enter' && hits.length) take(hits[at]);
    else if (event.key === 'Escape') { hits = []; list(); canvas.focus(); }
    else if (event.key === 'ArrowDown' && hits.length) at = (at + 1) % hits.length;
    else if (event.key === 'ArrowUp' && hits.length) at = (at + hits.length - 1) % hits.length;
    else return;
    list();
    event.preventDefault();
  });
  $('find').addEventListener('blur', () => { hits = []; list(); });

  // ---- the rest
  $('plan-way').addEventListener('click', plan);
  $('side-way').addEventListener('click', side);
  $('fit').addEventListener('click', fit);
  $('theme').addEventListener('click', theme);
  $('tape').addEventListener('click', () => toggle('tape'));
  $('named').addEventListener('click', () => toggle('named'));
  $('by').addEventListener('change', paint);
  addEventListener('resize', draw);
  canvas.addEventListener('webglcontextlost', (event) => event.preventDefault());
  canvas.addEventListener('webglcontextrestored', () => { compile(); paint(); });
  root.dataset.theme = matchMedia('(prefers-color-scheme: dark)').matches ? 'dark' : 'light';
  press('named', stations.length <= 100);
  Object.assign(view, fitted([view.bearing, view.tilt]));
  compile();
  paint();
})();
