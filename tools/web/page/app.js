'use strict';
// The page: a project, its run, and what can be done with both.

const MOST_TIME = 10000000, FIRST_TIME = 1000000, LONG_LINK = 8000;       // microseconds; characters

async function openApp(host, data, carried) {
  const app = { data, project: makeProject('project', []), ready: null, notes: [], us: FIRST_TIME, run: null, opened: 0, rate: null, template: null, warm: warmRun(data.examples),
    kit: { types: data.types, chips: Object.fromEntries(Object.entries(data.chips).map(([name, text]) => [name, fromBase64(text)])) } };
  buildApp(app, host);
  app.machine = makeMachine(carried.worker, await Promise.all(carried.forms.map(text => inflate(fromBase64(text), 'deflate'))), app.warm);
  app.template = async () => plainText.decode(await inflate(fromBase64(carried.template), 'deflate'));
  takeDrops(app);
  addEventListener('hashchange', () => openLink(app));
  addEventListener('keydown', event => { if (event.key === 'Enter' && (event.ctrlKey || event.metaKey)) { event.preventDefault(); runNow(app); } });
  if (!(await openLink(app))) show(app, makeProject('project', []), app.us, []);
  return app;
}

// Ten milliseconds of an example in which pins move all the time.
const WARM = 'counter';
function warmRun(examples) {
  const example = examples.find(({ name }) => name === WARM);
  return example && { words: ['run', WARM, '--us', '10000', '--vcd', 'wave', '--report', 'report'], files: example.files.map(([path, text]) => [`${WARM}/${path}`, fromBase64(text)]) };
}

// ---- Elements

function buildApp(app, host) {
  const parts = app.elements = {
    example: make('select', { 'aria-label': 'example', onchange: () => openExample(app, parts.example.value) }, new Option('an example …', '')),
    folder: make('input', { type: 'file', webkitdirectory: true, hidden: true, onchange: event => takePicked(app, event.target) }),
    files: make('input', { type: 'file', multiple: true, hidden: true, onchange: event => takePicked(app, event.target) }),
    time: make('input', { className: 'run-time', spellcheck: false, autocomplete: 'off', 'aria-label': 'run time: microseconds, or a number with ms or s', onchange: () => setTime(app) }),
    run: make('button', { type: 'button', className: 'go', title: 'Ctrl and Enter', onclick: () => runNow(app) }, 'Run'),
    stop: make('button', { type: 'button', disabled: true, onclick: () => app.machine.stop() }, 'Stop'),
    progress: make('progress', { max: 1, hidden: true, 'aria-label': 'progress' }), said: make('span', { className: 'said', role: 'status' }),
    save: make('select', { 'aria-label': 'save', onchange: () => save(app) }, new Option('save …', ''), ...Object.entries(SAVES).map(([key, { title }]) => new Option(title, key))),
    complaint: make('div', { className: 'complaint', role: 'alert', hidden: true }), advice: make('div', { className: 'advice', hidden: true }), stage: make('div', { className: 'stage-of-run' }),
  };
  parts.messages = make('div', { className: 'messages', hidden: true }, parts.advice, parts.complaint);
  for (const { name } of app.data.examples) parts.example.append(new Option(name, name));
  app.editor = makeEditor({ onEdit: () => { say(app, 'changed; Run shows what comes of it'); app.notes = []; advise(app); } });
  app.hand = makeHand({ onLine: (action, id, value) => addLines(app, [[app.look.view.t, action, id, value]]), onTap: (id, cycles, how) => addLines(app, [[app.look.view.t, 'press', id, how], [app.look.view.t + cycles, 'release', id, how]]) });
  const side = make('aside', { className: 'side' }, app.hand.element, app.editor.element);
  side.addEventListener('keydown', event => { if (!(event.ctrlKey || event.metaKey)) event.stopPropagation(); });     // the keys of the look are for the rest of the page
  host.append(
    make('header', { className: 'top' }, make('h1', {}, 'Mudflatjar'), parts.example, make('button', { type: 'button', onclick: () => parts.folder.click() }, 'folder …'),
      make('button', { type: 'button', title: 'a ZIP archive, a HEX file, or files of the project', onclick: () => parts.files.click() }, 'files …'),
      make('label', { className: 'time-label' }, 'run ', parts.time), parts.run, parts.stop, parts.progress, parts.said, parts.save, parts.folder, parts.files),
    parts.messages,
    make('main', { className: 'work' }, side, parts.stage));
  app.look = makeLook(parts.stage, { on: { cursor: t => { if (app.run) app.hand.update(...valuesAt(app, t)); }, part: id => app.hand.use(id) } });
  parts.stage.hidden = true;
}

const showMessages = ({ elements: { messages, advice, complaint } }) => { messages.hidden = advice.hidden && complaint.hidden; };
const say = (app, text) => setText(app.elements.said, text);

// ---- Opening

function show(app, project, us, notes) {
  app.machine.stop();
  app.opened++;
  Object.assign(app, { project, notes, ready: null, run: null, rate: null });
  app.us = us;
  app.elements.time.value = `${us} us`;
  app.elements.stage.hidden = true;
  app.hand.show([], () => 0);
  app.editor.open(project, 'diagram.json');
  complain(app, null);
  advise(app);
  document.title = project.files.size ? `${project.name}: Mudflatjar` : 'Mudflatjar';
  say(app, '');
  if (!adviceOf(project)) runNow(app);
}

function advise(app) {
  const advice = adviceOf(app.project), faults = app.ready ? app.ready.faults : [], lines = [...app.notes, ...faults.map(fault => `Left out: ${fault}.`), ...(advice ? [advice] : [])];
  app.elements.advice.hidden = lines.length === 0;
  app.elements.advice.replaceChildren(...lines.map(line => make('p', {}, line)));
  showMessages(app);
}

async function openLink(app) {
  const hash = location.hash.slice(1);
  if (hash.startsWith('example=')) return openExample(app, decodeURIComponent(hash.slice(8)));
  try {
    const linked = await projectOfLink(hash);
    if (linked) { app.elements.example.value = ''; show(app, linked.project, timeWithin(linked.us), []); }
    return linked !== null;
  } catch {
    show(app, makeProject('project', []), FIRST_TIME, ['The link is cut or was changed: it holds no project.']);
    return true;
  }
}

function openExample(app, name) {
  const example = app.data.examples.find(it => it.name === name);
  if (!example) return false;
  app.elements.example.value = name;
  show(app, makeProject(name, example.files.map(([path, text]) => [path, fromBase64(text)])), example.us, []);
  return true;
}

async function takePicked(app, input) {
  const picked = [...input.files];
  try {
    await take(app, await Promise.all(picked.map(async file => [file.webkitRelativePath || file.name, new Uint8Array(await file.arrayBuffer())])));
  } catch (error) {
    say(app, `the files could not be read: ${error.message}`);
  }
  input.value = '';                 // so that the same files can be picked again; before, they would be lost while they are read
}

// Files that were handed over, [[path, bytes], ..]: a project of their own where a diagram or a folder is among them, else
// files for the project that is open.
async function take(app, files) {
  try {
    if (files.length === 1 && /\.zip$/i.test(files[0][0])) {
      const inside = await unzipped(files[0][1]), name = files[0][0].replace(/^.*\//, '').replace(/\.zip$/i, '');
      files = inside.some(([path]) => path.includes('/')) && !inside.some(([path]) => path === 'diagram.json') ? inside : inside.map(([path, bytes]) => [`${name}/${path}`, bytes]);
    }
    const isProject = files.some(([path]) => path.includes('/') || path === 'diagram.json');
    app.elements.example.value = '';
    if (isProject || !app.project.files.size) {
      const project = projectOfFiles(files), notes = complete(project);
      show(app, project, FIRST_TIME, project.files.size ? notes : ['There is no file of a project among these.']);
      return;
    }
    const notes = files.flatMap(([path, bytes]) => (isFirmware(path) ? withFirmware(app.project, path, bytes) : put(app.project, path, bytes)));
    show(app, app.project, app.us, notes);
  } catch (error) {
    if (error instanceof ArchiveFault) complain(app, `${files[0][0]}: ${error.message}`); else say(app, error.message);
  }
}

function put(project, name, bytes) {            // in the place of a file of that name, wherever in the folder that is
  const path = [...project.files.keys()].find(it => it.split('/').pop() === name) || name;
  project.files.set(path, bytes);
  return [`${path} is new.`];
}

function takeDrops(app) {
  addEventListener('dragover', event => { event.preventDefault(); document.documentElement.classList.add('dropping'); });
  addEventListener('dragleave', event => { if (!event.relatedTarget) document.documentElement.classList.remove('dropping'); });
  addEventListener('drop', async event => {
    event.preventDefault();
    document.documentElement.classList.remove('dropping');
    const dropped = droppedItems(event.dataTransfer), files = [];
    try {
      for (const item of dropped) await readDropped(item, files);
    } catch (error) {
      say(app, `the folder could not be read: ${error.message}; use the button "folder", or drop its ZIP archive`);
      return;
    }
    if (files.length) await take(app, files);
  });
}

// What was dropped, in each form that the browser has. An entry of a page that was opened from the disk cannot be read in Chromium, a
// handle can; Firefox and Safari have no handles. All must be asked for before the event ends.
function droppedItems(transfer) {
  return [...transfer.items].filter(item => item.kind === 'file').map(item => ({
    file: item.getAsFile(), entry: item.webkitGetAsEntry ? item.webkitGetAsEntry() : null,
    handle: item.getAsFileSystemHandle ? item.getAsFileSystemHandle().catch(() => null) : null,
  }));
}

async function readDropped({ file, entry, handle }, files) {
  const known = await handle, isFolder = known ? known.kind === 'directory' : entry && entry.isDirectory;
  if (!isFolder) files.push([file.name, new Uint8Array(await file.arrayBuffer())]);
  else if (known) await readHandle(known, '', files);
  else await readEntry(entry, '', files);
}

async function readHandle(handle, base, files) {
  const path = base + handle.name;
  if (isHidden(path)) return;
  if (handle.kind === 'file') files.push([path, new Uint8Array(await (await handle.getFile()).arrayBuffer())]);
  else for await (const inner of handle.values()) await readHandle(inner, `${path}/`, files);
}

async function readEntry(entry, base, files) {
  const path = base + entry.name;
  if (isHidden(path)) return;
  if (entry.isFile) {
    const file = await new Promise((resolve, reject) => entry.file(resolve, reject));
    files.push([path, new Uint8Array(await file.arrayBuffer())]);
    return;
  }
  const reader = entry.createReader();
  for (;;) {                        // a reader gives a hundred entries at a time
    const some = await new Promise((resolve, reject) => reader.readEntries(resolve, reject));
    if (!some.length) return;
    for (const inner of some) await readEntry(inner, `${path}/`, files);
  }
}

// ---- Running

const timeWithin = us => (Number.isFinite(us) ? Math.min(Math.max(Math.round(us), 1), MOST_TIME) : FIRST_TIME);
function setTime(app) {
  const cycles = parsedTime(app.elements.time.value);
  if (cycles !== null) app.us = timeWithin(cycles / MICROSECOND);
  app.elements.time.value = `${app.us} us`;
  return cycles !== null;
}

async function runNow(app) {
  setTime(app);
  const { us } = app, opened = app.opened, ready = preparedOf(app.project, app.kit);
  app.ready = ready.complaint ? null : ready;
  advise(app);
  if (ready.complaint) { complain(app, ready.complaint); say(app, 'not run'); return; }
  const { words, files } = callOf(ready.project, us);
  busy(app, true);
  try {
    const { ended, ms } = await app.machine.run({ words, files });
    if (opened !== app.opened) return;
    app.rate = ms / us;
    if (ended.status === 0) { complain(app, null); showEnd(app, ready, ended, us); say(app, `${us} µs in ${ms < 100 ? ms.toFixed(1) : Math.round(ms)} ms`); }
    else { complain(app, ended.complaint ? plainText.decode(ended.complaint) : 'out of memory'); say(app, `ended with status ${ended.status}`); }
  } catch (error) {
    if (error === null) { if (opened === app.opened) say(app, 'stopped'); }
    else { complain(app, error.message); say(app, 'not run'); }
  } finally {
    if (!app.machine.running) busy(app, false);
  }
}

let ticking = 0;
function busy(app, is) {
  const { run, stop, progress } = app.elements, start = performance.now(), likely = app.rate === null ? null : app.rate * app.us;
  clearInterval(ticking);
  stop.disabled = !is;
  run.classList.toggle('busy', is);
  progress.hidden = true;
  if (!is) return;
  const tick = () => {
    const ms = performance.now() - start;
    if (ms < 150) return;
    progress.hidden = false;
    if (likely === null) progress.removeAttribute('value'); else progress.value = Math.min(ms / likely, .99);
    say(app, `runs, ${(ms / 1000).toFixed(1)} s${likely === null ? '' : ` of about ${(likely / 1000).toFixed(1)} s`}`);
  };
  ticking = setInterval(tick, 100);
}

// The look stays where it is: at its cursors, in its range, and playing.
function showEnd(app, { project, notes, controls = {} }, ended, us) {
  const kept = app.run && { ...app.look.view, cycles: app.run.cycles };
  app.ended = ended;
  app.shown = { diagram: textOf(project, 'diagram.json').replace(/^\uFEFF/, ''), chips: chipsOf(project), modules: modulesOf(project, app.data.viewers), script: textOf(project, SCRIPT), controls };
  app.run = runFrom({ title: project.name, us, ...app.shown, vcd: ended.wave, serial: ended.serial, report: plainText.decode(ended.report), program: 'in a page' });
  app.run.made = notes;
  app.elements.stage.hidden = false;
  app.look.show(app.run);
  if (kept && kept.cycles === app.run.cycles) app.look.range(kept.from, kept.to);
  if (kept) { if (kept.b !== null) app.look.second(kept.b); app.look.go(kept.t); if (kept.playing) app.look.play(true); }
  const [valueOf, controlOf] = valuesAt(app, app.look.view.t), moves = new Moves(JSON.parse(app.shown.diagram), app.kit.types);
  app.hand.show(app.run.parts, valueOf, Object.fromEntries(Object.keys(controls).map(id => [id, moves.ruleOf(id)])), controlOf);
}

// What the parts and their controls are set to at a cycle.
const valuesAt = (app, t) => [id => inputAt(app.run, id, t), (id, name) => controlAt(app.run, id, name, t)];

// What was done by hand: lines of the script at their cycles, and the run that comes of them.
function addLines(app, lines) {
  const end = app.us * MICROSECOND;
  if (lines[0][0] >= end) { say(app, 'cursor A is at the end of the run: move it to where the part is to move'); return; }
  let script = textOf(app.project, SCRIPT);
  for (const [cycle, action, id, value] of lines) if (cycle < end) script = withLine(script, cycle, action, id, value);
  app.project.files.set(SCRIPT, utf8.encode(script));
  app.editor.refresh();
  runNow(app);
}

// ---- Complaints

function complain(app, text) {
  const box = app.elements.complaint, complaint = text === null ? null : complaintOf(text);
  box.hidden = complaint === null;
  showMessages(app);
  if (complaint === null) { if (app.editor.marked) app.editor.mark(null); return; }
  const rule = complaint.kind === 'refused' ? app.data.refusals[complaint.number] : null, { name } = app.project, inside = complaint.file && complaint.file.startsWith(name + '/') ? complaint.file.slice(name.length + 1) : null;
  const lines = [make('strong', {}, complaint.text)];
  if (rule) lines.push(make('p', {}, `It comes where ${rule.when}.`), make('p', {}, `What to do: ${rule.remedy}.`));
  if (complaint.kind === 'missing') lines.push(make('p', {}, inside ? `The project has no file ${inside}.` : 'That file is not there.'));
  if (complaint.text === 'write failed') lines.push(make('p', {}, 'The wave or the bytes need more memory than a page can have. A shorter run time helps.'));
  box.replaceChildren(...lines);
  if (inside !== null && app.project.files.has(inside)) app.editor.mark(inside, rangeOf(textOf(app.project, inside), app.ready ? app.ready.placeOf(complaint.place, inside) : complaint.place));
}

// ---- Saving

const SAVES = {
  wave: { title: 'wave (VCD)', needsRun: true, do: app => saveAs(`${app.project.name}.vcd`, app.ended.wave) },
  report: { title: 'report', needsRun: true, do: app => saveAs(`${app.project.name}-report.txt`, app.ended.report, 'text/plain') },
  bytes: { title: 'bytes that were sent', needsRun: true, do: app => saveAs(`${app.project.name}-serial.txt`, app.ended.serial) },
  page: { title: 'page of this run', needsRun: true, do: async app => saveAs(`${app.project.name}.html`, await pageOfRun(await app.template(), app.run, app.shown), 'text/html') },
  project: { title: 'project (ZIP)', do: app => saveAs(`${app.project.name}.zip`, zipped([...app.project.files].map(([path, bytes]) => [`${app.project.name}/${path}`, bytes]))) },
  link: { title: 'link with the project', do: app => putLink(app) },
};

async function save(app) {
  const { save: select } = app.elements, wanted = SAVES[select.value];
  select.value = '';
  if (!wanted) return;
  if (wanted.needsRun ? !app.run : !app.project.files.size) { say(app, wanted.needsRun ? 'there is no run yet' : 'there is no project yet'); return; }
  try { await wanted.do(app); } catch (error) { say(app, error.message); }
}

// The address becomes the link; the clipboard has it too where the browser allows that.
async function putLink(app) {
  const link = await linkOf(app.project, app.us), whole = location.href.split('#')[0] + '#' + link;
  try { history.replaceState(null, '', '#' + link); } catch { /* a viewer that forbids it: the clipboard has the link */ }
  let copied = true;
  try { await navigator.clipboard.writeText(whole); } catch { copied = false; }
  say(app, `the link is in the address${copied ? ' and in the clipboard' : ''}, ${grouped(whole.length)} characters${whole.length > LONG_LINK ? ': too long for some programs' : ''}`);
}
