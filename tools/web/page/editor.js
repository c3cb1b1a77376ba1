'use strict';
// The files of a project: a tab for each, a text to edit where it is one, and a mark where a complaint points.
//
//   const editor = makeEditor({ onEdit(path) {} });
//   editor.open(project)          shows its files;  editor.show(path) one of them
//   editor.mark(path, range)      marks {from, to} of a text and brings it into view; editor.mark(null) takes marks away

const MOST_TEXT = 1 << 18;
const isText = (path, bytes) => bytes.length <= MOST_TEXT && !/\.(wasm|elf|bin|zip|png|jpe?g|gif)$/i.test(path) && !bytes.subarray(0, 4096).includes(0);

function makeEditor({ onEdit }) {
  const editor = {
    project: null, path: null, marked: null,
    tabs: make('div', { className: 'tabs', role: 'tablist', 'aria-label': 'files' }),
    text: make('textarea', { spellcheck: false, autocomplete: 'off', 'aria-label': 'text of the file', wrap: 'off' }),
    back: make('pre', { className: 'marks', 'aria-hidden': 'true' }), note: make('p', { className: 'binary' }),
    hint: make('p', { className: 'hint', hidden: true }, 'To be read: a page does not compile. ./mudflatjar play runs a sketch and chips in C; here a HEX file and modules run.'),
  };
  editor.sheet = make('div', { className: 'sheet' }, editor.back, editor.text);
  editor.element = make('div', { className: 'editor' }, editor.tabs, editor.hint, editor.sheet, editor.note);
  editor.open = (project, path) => { editor.project = project; editor.marked = null; editor.show(project.files.has(path) ? path : firstPath(project)); };
  editor.show = path => { editor.path = path; drawTabs(editor); drawText(editor); };
  editor.refresh = () => { drawTabs(editor); drawText(editor); };
  editor.mark = (path, range) => markText(editor, path, range);
  editor.text.addEventListener('input', () => {
    editor.project.files.set(editor.path, utf8.encode(editor.text.value));
    if (editor.marked) { editor.marked = null; drawMarks(editor); drawTabs(editor); }
    onEdit(editor.path);
  });
  editor.text.addEventListener('scroll', () => { editor.back.scrollTop = editor.text.scrollTop; editor.back.scrollLeft = editor.text.scrollLeft; });
  editor.tabs.addEventListener('keydown', event => moveTab(editor, event));
  return editor;
}

function firstPath(project) {
  const paths = pathsOf(project);
  return paths.find(path => project.files.has(path)) || null;
}

// The files that the simulator reads by name come first, a script even where there is none yet; then the others by name.
function pathsOf(project) {
  const rest = [...project.files.keys()].filter(path => !FIRST_FILES.includes(path)).sort();
  return project.files.size ? [...FIRST_FILES, ...rest] : [];
}

function drawTabs(editor) {
  editor.tabs.replaceChildren(...pathsOf(editor.project).map(path => make('button', { type: 'button', role: 'tab', 'aria-selected': String(path === editor.path),
    tabIndex: path === editor.path ? 0 : -1, className: `${editor.marked && editor.marked.path === path ? 'bad' : ''}${editor.project.files.has(path) ? '' : ' absent'}`,
    title: editor.project.files.has(path) ? path : `${path}: not there yet`, onclick: () => editor.show(path) }, path)));
}

function moveTab(editor, { key }) {
  const paths = pathsOf(editor.project), step = key === 'ArrowRight' ? 1 : key === 'ArrowLeft' ? -1 : 0;
  if (!step || !paths.length) return;
  editor.show(paths[(paths.indexOf(editor.path) + step + paths.length) % paths.length]);
  editor.tabs.querySelector('[aria-selected=true]').focus();
}

function drawText(editor) {
  const { project, path } = editor, bytes = path ? project.files.get(path) || new Uint8Array(0) : null, shown = bytes !== null && isText(path, bytes);
  editor.sheet.hidden = !shown;
  editor.note.hidden = shown;
  editor.hint.hidden = !shown || !isSource(path);
  editor.text.readOnly = !editor.hint.hidden;
  if (shown) editor.text.value = plainText.decode(bytes);
  else setText(editor.note, bytes ? `${path}: ${grouped(bytes.length)} bytes` : '');
  editor.text.placeholder = path === SCRIPT ? '10000us press btn1\n20000us release btn1' : '';
  drawMarks(editor);
}

function drawMarks(editor) {
  const { marked, text, back } = editor;
  if (!marked || marked.path !== editor.path || !marked.range) { back.replaceChildren(); return; }
  const value = text.value, { from, to } = marked.range, inside = value.slice(from, to) || ' ';
  back.replaceChildren(value.slice(0, from), make('mark', {}, inside), value.slice(to) + '\n');
}

function markText(editor, path, range) {
  if (path === null) { editor.marked = null; editor.refresh(); return; }
  editor.marked = { path, range };
  editor.show(path);
  if (!range) return;
  const mark = editor.back.querySelector('mark'), { text } = editor;
  if (!mark) return;
  text.scrollTop = Math.max(0, mark.offsetTop - text.clientHeight / 3);
  text.scrollLeft = Math.max(0, mark.offsetLeft + Math.min(mark.offsetWidth, 200) - text.clientWidth);
  text.setSelectionRange(range.from, range.from);
}
