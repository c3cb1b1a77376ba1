// What the page's code makes of archives and of projects, for test_same.py: {archives: [base64], projects: [{diagram, chips}], folders:
// [{path: base64}], scripts: [{diagram, script}]} on standard input, and on standard output of each archive {files} or {fault}, of each diagram {text, notes, faults,
// isBoard, needs}, of each folder {files, notes, faults} or {complaint}, of each script {text, seen, controls} or {fault}.
import fs from 'node:fs';
import path from 'node:path';
import { fileURLToPath } from 'node:url';

const here = path.dirname(fileURLToPath(import.meta.url)), root = path.join(here, '../../..');
const look = ['wave.js', 'run.js'].map(name => fs.readFileSync(path.join(root, 'tools/look/page', name), 'utf8'));
const own = ['script.js', 'archive.js', 'json.js', 'formulas.js', 'lower.js', 'moves.js', 'firmware.js', 'project.js', 'prepare.js'].map(name => fs.readFileSync(path.join(here, '../page', name), 'utf8'));
const page = new Function(`${look.join('\n')}\n{\n${own.join('\n')}\nreturn { unzipped, ArchiveFault, readJson, shapeFault, needsLowering, Lowering, makeProject, complete, preparedOf, expanded, controlsOf, MoveFault };\n}`)();
const types = JSON.parse(fs.readFileSync(path.join(root, 'tools/wokwi/types.json'), 'utf8'));
const chips = Object.fromEntries(fs.readdirSync(path.join(root, 'tools/wokwi/chips')).map(name => [name, new Uint8Array(fs.readFileSync(path.join(root, 'tools/wokwi/chips', name)))]));
const asked = JSON.parse(fs.readFileSync(0, 'utf8'));

async function ofArchive(text) {
  try {
    return { files: (await page.unzipped(new Uint8Array(Buffer.from(text, 'base64')))).map(([name, bytes]) => [name, Buffer.from(bytes).toString('base64')]) };
  } catch (fault) {
    if (!(fault instanceof page.ArchiveFault)) throw fault;
    return { fault: fault.message };
  }
}

function ofProject({ diagram, chips }) {
  const value = page.readJson(diagram), shape = page.shapeFault(value);
  if (shape) return { shape };
  const lowering = new page.Lowering(value, new Map(Object.entries(chips)), types), text = lowering.outcome();
  return { text, notes: lowering.notes, faults: lowering.faults, isBoard: lowering.isBoard, needs: page.needsLowering(value, types), chips: Object.fromEntries(lowering.ownChips) };
}

function ofFolder(files) {
  const project = page.makeProject('project', Object.entries(files).map(([name, text]) => [name, new Uint8Array(Buffer.from(text, 'base64'))]));
  page.complete(project);
  const { complaint, project: made, notes, faults } = page.preparedOf(project, { types, chips });
  return complaint ? { complaint } : { notes, faults, files: Object.fromEntries([...made.files].map(([name, bytes]) => [name, Buffer.from(bytes).toString('base64')])) };
}

function ofScript({ diagram, script }) {
  const value = JSON.parse(diagram);
  try {
    const { text, seen } = page.expanded(script, value, types);
    return { text, seen: seen.map(it => [it.cycle, it.part, it.control, it.value, it.unit]), controls: page.controlsOf(value, types, seen) };
  } catch (fault) {
    if (!(fault instanceof page.MoveFault)) throw fault;
    return { fault: fault.message };
  }
}

const archives = [];
for (const text of asked.archives) archives.push(await ofArchive(text));
process.stdout.write(JSON.stringify({ archives, projects: asked.projects.map(ofProject), folders: asked.folders.map(ofFolder), scripts: asked.scripts.map(ofScript) }));
