'use strict';
// Firmware as Intel HEX, also where a tool gives an ELF file alone, as tools/wokwi/firmware.py makes it.

const FLASH = 32768, DATA_FROM = 0x800000;      // bytes of flash; from here on are avr-gcc's addresses of data, EEPROM and fuses
const isElf = bytes => bytes.length >= 4 && bytes[0] === 0x7f && bytes[1] === 0x45 && bytes[2] === 0x4c && bytes[3] === 0x46;

class FirmwareFault extends Error {}

function hexRecord(address, kind, data) {
  const body = [data.length, address >> 8 & 255, address & 255, kind, ...data], sum = body.reduce((a, b) => a + b, 0);
  return ':' + [...body, -sum & 255].map(byte => byte.toString(16).toUpperCase().padStart(2, '0')).join('');
}

// Intel HEX of [[address, bytes], ..] in flash, 16 bytes a line.
function hexOf(image) {
  const lines = [];
  for (const [start, data] of image.sort((a, b) => a[0] - b[0])) {
    if (start + data.length > FLASH) throw new FirmwareFault('the firmware is too large for an Uno');
    for (let at = 0; at < data.length; at += 16) lines.push(hexRecord(start + at, 0, data.subarray(at, at + 16)));
  }
  return [...lines, hexRecord(0, 1, []), ''].join('\n');
}

// What an ELF file of an AVR has for the flash: [address, bytes] of each loaded segment.
function imageOfElf(bytes) {
  const view = new DataView(bytes.buffer, bytes.byteOffset, bytes.length), image = [];
  try {
    if (bytes[4] !== 1 || bytes[5] !== 1 || view.getUint16(18, true) !== 83) throw new FirmwareFault('it is no ELF file of an AVR');
    const table = view.getUint32(28, true), size = view.getUint16(42, true), count = view.getUint16(44, true);
    for (let n = 0; n < count; n++) {
      const [kind, offset, , address, length] = [0, 4, 8, 12, 16].map(at => view.getUint32(table + n * size + at, true));
      if (kind !== 1 || !length || address >= DATA_FROM) continue;
      if (offset + length > bytes.length) throw new FirmwareFault('the ELF file was cut');
      image.push([address, bytes.subarray(offset, offset + length)]);
    }
  } catch (error) {
    throw error instanceof RangeError ? new FirmwareFault('the ELF file was cut') : error;
  }
  return image;
}

const asHex = bytes => (isElf(bytes) ? utf8.encode(hexOf(imageOfElf(bytes))) : bytes);
