#!/usr/bin/env node
// A client of `mudflatjar serve`: presses a button and waits for the LED.  node client.mjs PROGRAM FOLDER
import { spawn } from 'node:child_process';

const [program, folder] = process.argv.slice(2);
const board = spawn(program, ['serve', folder], { stdio: ['pipe', 'pipe', 'inherit'] });
const chunks = board.stdout[Symbol.asyncIterator]();
let unread = Buffer.alloc(0);

async function take(enough) {
    while (enough() < 0) {
        const { value, done } = await chunks.next();
        if (done) throw new Error('the live board has ended');
        unread = Buffer.concat([unread, value]);
    }
    const taken = unread.subarray(0, enough());
    unread = unread.subarray(enough());
    return taken;
}

async function answer(request) {
    const line = (await take(() => unread.indexOf('\n') + 1 || -1)).toString().trimEnd();
    const [kind, cycle, count, ...words] = line.split(' ');
    if (kind === 'no') throw new Error(`${request}: ${count} ${words.join(' ')}`);
    const long = Number(count) && Number(count) + 1;
    const block = await take(() => (unread.length >= long ? long : -1));
    return { cycle: Number(cycle), words, block: block.subarray(0, Number(count)) };
}

function ask(request) {
    board.stdin.write(`${request}\n`);
    return answer(request);
}

await answer('');
await ask('run 160000');
await ask('press btn1');
const moved = await ask('run 1760000 edge uno.13');
const { words } = await ask('level uno.13');
console.log(`pin 13 is ${words[0]} after ${moved.cycle - 160000} cycles`);
await ask('quit');
