'use strict';
// Folders as one text or one file: ZIP archives, and links that hold a project.

const utf8 = new TextEncoder(), plainText = new TextDecoder(), latin1 = new TextDecoder('latin1');

async function through(bytes, stream) { return new Uint8Array(await new Response(new Blob([bytes]).stream().pipeThrough(stream)).arrayBuffer()); }
const inflate = (bytes, format) => through(bytes, new DecompressionStream(format));
const deflate = (bytes, format) => through(bytes, new CompressionStream(format));

function fromBase64(text) {
  const binary = atob(text), bytes = new Uint8Array(binary.length);
  for (let i = 0; i < binary.length; i++) bytes[i] = binary.charCodeAt(i);
  return bytes;
}
function toBase64(bytes) {
  let binary = '';
  for (let i = 0; i < bytes.length; i += 0x8000) binary += String.fromCharCode(...bytes.subarray(i, i + 0x8000));
  return btoa(binary);
}

// ---- ZIP: archives of plain and deflated files. tools/wokwi/archive.py reads them by the same rules and with the same sentences.

const CENTRAL = 0x02014b50, LOCAL = 0x04034b50, END = 0x06054b50, END_ROOM = 22 + 0xffff;
const MOST_BYTES = 64 << 20, MOST_ENTRIES = 1000, MOST_NAME = 255, MOST_LIST = 1 << 20;      // of the archive and unpacked; files and folders; a name; the list of names
const ENCRYPTED = 1, IN_UTF8 = 0x800, PLAIN = 0, DEFLATED = 8;
const KIND = 0o170000, REGULAR = 0o100000, FOLDER = 0o040000, LINK = 0o120000;                // what a mode of Unix says that an entry is
const CP437 = 'ÇüéâäàåçêëèïîìÄÅÉæÆôöòûùÿÖÜ¢£¥₧ƒáíóúñÑªº¿⌐¬½¼¡«»░▒▓│┤╡╢╖╕╣║╗╝╜╛┐└┴┬├─┼╞╟╚╔╩╦╠═╬╧╨╤╥╙╘╒╓╫╪┘┌█▄▌▐▀αßΓπΣσµτΦΘΩδ∞φε∩≡±≥≤⌠⌡÷≈°∙·√ⁿ²■\u00a0';

class ArchiveFault extends Error {}
const shownName = name => { const text = name.replace(/[\x00-\x1f\x7f-\x9f\ud800-\udfff]/gu, '?'); return [...text].length > 80 ? [...text].slice(0, 80).join('') + '..' : text; };

// Where the list of entries is: {at, count, shift}, `shift` how many bytes are before the archive.
function listAt(bytes, view) {
  let end = bytes.length - 22;
  const first = Math.max(0, bytes.length - END_ROOM);
  while (end >= first && view.getUint32(end, true) !== END) end--;
  if (end < first) throw new ArchiveFault('it is no ZIP archive');
  const count = view.getUint16(end + 10, true), size = view.getUint32(end + 12, true), offset = view.getUint32(end + 16, true);
  if (count === 0xffff || size === 0xffffffff || offset === 0xffffffff) throw new ArchiveFault('it is a ZIP64 archive, which is not read');
  if (count > MOST_ENTRIES) throw new ArchiveFault(`the archive has ${count} files and folders, and ${MOST_ENTRIES} is the most`);
  if (size > MOST_LIST) throw new ArchiveFault(`the archive's list of its files has more than ${MOST_LIST >> 20} MiB`);
  if (end - size - offset < 0) throw new ArchiveFault('the archive is damaged');
  return { at: end - size, count, shift: end - size - offset };
}

// An entry's name: UTF-8 where it says so or can be, as macOS writes it, else the letters of the first PC.
function entryName(bytes, flags) {
  try {
    return new TextDecoder('utf-8', { fatal: true, ignoreBOM: true }).decode(bytes);
  } catch {
    if (flags & IN_UTF8) throw new ArchiveFault('the archive is damaged');
    return Array.from(bytes, byte => (byte < 128 ? String.fromCharCode(byte) : CP437[byte - 128])).join('');
  }
}

// The path in the archive's folder, '' for that folder itself.
function pathOfEntry(name) {
  const path = name.replace(/\\/g, '/'), steps = path.split('/');
  if (path.startsWith('/') || /^[A-Za-z]:/.test(path) || steps.includes('..')) throw new ArchiveFault(`${shownName(name)}: this name leads out of the archive's folder`);
  if (name.includes('\0') || !name) throw new ArchiveFault(`${shownName(name)}: this is no name of a file`);
  if (utf8.encode(path).length > MOST_NAME) throw new ArchiveFault(`${shownName(name)}: this name has more than ${MOST_NAME} bytes`);
  return steps.filter(step => step !== '' && step !== '.').join('/');
}

function kindOfEntry(mode, name) {
  const kind = mode & KIND;
  if (kind === LINK) throw new ArchiveFault(`${shownName(name)}: this is a link, and only files are taken`);
  if (kind !== 0 && kind !== REGULAR && kind !== FOLDER) throw new ArchiveFault(`${shownName(name)}: this is neither a file nor a folder`);
  return /[\\/]$/.test(name) || kind === FOLDER ? FOLDER : REGULAR;
}

// An entry's bytes. No more than `whole` of them are unpacked, whatever the packed ones would become.
async function unpackedEntry(bytes, view, entry, room) {
  const { name, nameBytes, flags, method, size, whole, crc, local } = entry, damaged = () => new ArchiveFault(`${shownName(name)}: this file is damaged`);
  if (flags & ENCRYPTED) throw new ArchiveFault(`${shownName(name)}: this file is encrypted`);
  if (method !== PLAIN && method !== DEFLATED) throw new ArchiveFault(`${shownName(name)}: this file is packed by method ${method}, and only 0 and 8 are read`);
  if (whole > room) throw new ArchiveFault(`unpacked, the archive has more than ${MOST_BYTES >> 20} MiB`);
  if (local + 30 > bytes.length || view.getUint32(local, true) !== LOCAL) throw damaged();
  const long = view.getUint16(local + 26, true), from = local + 30 + long + view.getUint16(local + 28, true);
  if (from + size > bytes.length || long !== nameBytes.length || !nameBytes.every((byte, i) => bytes[local + 30 + i] === byte)) throw damaged();
  const packed = bytes.subarray(from, from + size), content = method === PLAIN ? packed.slice() : await inflatedUpTo(packed, whole).catch(() => null);
  if (!content || content.length !== whole || crc32(content) !== crc) throw damaged();
  return content;
}

async function inflatedUpTo(packed, most) {
  const reader = new Blob([packed]).stream().pipeThrough(new DecompressionStream('deflate-raw')).getReader(), content = new Uint8Array(most);
  let size = 0;
  for (;;) {
    const { done, value } = await reader.read();
    if (done) return content.subarray(0, size);
    if (size + value.length > most) { reader.cancel().catch(() => {}); return null; }
    content.set(value, size);
    size += value.length;
  }
}

// [[path, bytes], ..] of an archive.
async function unzipped(bytes) {
  if (bytes.length > MOST_BYTES) throw new ArchiveFault(`the archive has more than ${MOST_BYTES >> 20} MiB`);
  const view = new DataView(bytes.buffer, bytes.byteOffset, bytes.length), files = new Map(), folders = new Set(), list = listAt(bytes, view);
  let { at } = list, room = MOST_BYTES;
  for (let left = list.count; left > 0; left--) {
    if (at + 46 > bytes.length || view.getUint32(at, true) !== CENTRAL) throw new ArchiveFault('the archive is damaged');
    const entry = { flags: view.getUint16(at + 8, true), method: view.getUint16(at + 10, true), crc: view.getUint32(at + 16, true), size: view.getUint32(at + 20, true), whole: view.getUint32(at + 24, true),
      local: view.getUint32(at + 42, true) + list.shift, nameBytes: bytes.subarray(at + 46, at + 46 + view.getUint16(at + 28, true)) };
    entry.name = entryName(entry.nameBytes, entry.flags);
    const { name } = entry, path = pathOfEntry(name), kind = kindOfEntry(view.getUint32(at + 38, true) >>> 16, name), steps = path.split('/');
    at += 46 + view.getUint16(at + 28, true) + view.getUint16(at + 30, true) + view.getUint16(at + 32, true);
    for (let n = 1; n < steps.length + (kind === FOLDER ? 1 : 0); n++) folders.add(steps.slice(0, n).join('/'));
    if (kind === FOLDER) continue;
    if (!path) throw new ArchiveFault(`${shownName(name)}: this is no name of a file`);
    if (files.has(path)) throw new ArchiveFault(`${shownName(name)}: this file is there twice`);
    files.set(path, await unpackedEntry(bytes, view, entry, room));
    room -= files.get(path).length;
  }
  for (const path of files.keys()) if (folders.has(path)) throw new ArchiveFault(`${shownName(path)}: this is a file and a folder`);
  return [...files];
}

const CRC_TABLE = Uint32Array.from({ length: 256 }, (_, n) => { for (let k = 0; k < 8; k++) n = n & 1 ? 0xedb88320 ^ (n >>> 1) : n >>> 1; return n >>> 0; });
function crc32(bytes) {
  let crc = 0xffffffff;
  for (const byte of bytes) crc = CRC_TABLE[(crc ^ byte) & 255] ^ (crc >>> 8);
  return (crc ^ 0xffffffff) >>> 0;
}

// An archive of [[path, bytes], ..] that packs nothing; its times are the first that ZIP has, so that equal files make equal archives.
function zipped(files) {
  const chunks = [], heads = [];
  let at = 0;
  const record = (signature, fields) => {
    const bytes = new Uint8Array(4 + fields.reduce((sum, [size]) => sum + size, 0)), view = new DataView(bytes.buffer);
    view.setUint32(0, signature, true);
    let place = 4;
    for (const [size, value] of fields) { if (size === 2) view.setUint16(place, value, true); else view.setUint32(place, value, true); place += size; }
    return bytes;
  };
  for (const [path, bytes] of files) {
    const name = utf8.encode(path), about = [[2, 0x0800], [2, 0], [2, 0], [2, 0x21], [4, crc32(bytes)], [4, bytes.length], [4, bytes.length], [2, name.length], [2, 0]];
    chunks.push(record(LOCAL, [[2, 20], ...about]), name, bytes);
    heads.push(record(CENTRAL, [[2, 20], [2, 20], ...about, [2, 0], [2, 0], [2, 0], [4, 0], [4, at]]), name);
    at += 30 + name.length + bytes.length;
  }
  const size = heads.reduce((sum, head) => sum + head.length, 0);
  return new Blob([...chunks, ...heads, record(END, [[2, 0], [2, 0], [2, files.length], [2, files.length], [4, size], [4, at], [2, 0]])], { type: 'application/zip' });
}

// ---- Links: all of a project behind `#p=`

async function linkOf(project, us) {
  const files = [...project.files].map(([path, bytes]) => [path, toBase64(bytes)]);
  const packed = await deflate(utf8.encode(JSON.stringify({ name: project.name, us, files })), 'deflate-raw');
  return 'p=' + toBase64(packed).replace(/\+/g, '-').replace(/\//g, '_').replace(/=+$/, '');
}

// {project, us} of a link's text behind `#`; null of none.
async function projectOfLink(text) {
  if (!text.startsWith('p=')) return null;
  const { name, us, files } = JSON.parse(plainText.decode(await inflate(fromBase64(text.slice(2).replace(/-/g, '+').replace(/_/g, '/')), 'deflate-raw')));
  return { project: makeProject(String(name), files.map(([path, text]) => [String(path), fromBase64(text)])), us: Number(us) };
}
