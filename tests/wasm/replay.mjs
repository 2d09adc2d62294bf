// node replay.mjs MODULE CALLS FOLDER [plant]: the replay of tests/chip/replay.c through the library as WebAssembly. CALLS are the rows
// that tests/chip/calls.awk makes of the header. With plant a bit is changed behind each call, and every line must differ.
import { readFileSync } from 'node:fs'

const [file, rows, folder, planted] = process.argv.slice(2)
const module = await WebAssembly.compile(readFileSync(file))
if (WebAssembly.Module.imports(module).length !== 0) throw new Error('the module has imports')
const { exports } = await WebAssembly.instantiate(module)

// Lent memory stands past the module's own, each in a room with 16 bytes of a mark on its left and the mark behind it.
const room = 4096, side = 16, mark = 0xA5, refused = 1n << 63n, journalWords = 128
const base = exports.memory.buffer.byteLength
exports.memory.grow(1)
const [ARGUMENT, HEAD, ANSWERS, CLOCKS, JOURNAL] = [0, 1, 2, 3, 4].map((i) => i * room + side)
const area = new Uint8Array(exports.memory.buffer, base, 5 * room)

// Numbers of so many bytes are recorded with their high byte first, and stand in memory with it last.
const hex = (field, size = 1) => {
  const bytes = field === '-' ? Buffer.alloc(0) : Buffer.from(field, 'hex')
  return Uint8Array.from(bytes, (_, i) => bytes[i - i % size + size - 1 - i % size])
}

const image = (lent) => {
  const filled = new Uint8Array(5 * room).fill(mark)
  for (const [at, bytes] of lent) filled.set(bytes, at)
  return filled
}

// The memory that a word of a row lends, and the bytes of one of its elements.
const lent = { ARGUMENT: [ARGUMENT, 1], HEAD: [HEAD, 1], ANSWERS: [ANSWERS, 2], JOURNAL: [JOURNAL, 4] }

// What is passed for a word, with the argument of the line and the bytes that are lent at each place.
const passed = (word, argument, lengths) => {
  const number = word.match(/^U(\d+)\((\d+)\)$/)
  if (number) return [argument.subarray(+number[2], +number[2] + number[1] / 8).reduce((n, byte) => n * 256 + byte, 0)]
  if (word === 'CLOCKS') return [base + CLOCKS]
  const [at, size] = lent[word]
  return [base + at, BigInt(lengths[at] / size)]
}

// A refusal has no value.
const wordOf = (refusal, value) => {
  if (refusal === '0') return BigInt(value)
  return value === '0' ? refused | BigInt(refusal) : -1n
}

// What a line lends, and what is to be found after the call.
const reading = ([, argument, refusal, more], lendsClocks) => {
  const before = [[ARGUMENT, hex(argument)]]
  if (lendsClocks) return { before, after: [...before, [CLOCKS, hex(more, 4)]], word: wordOf(refusal, '0') }
  return { before, after: before, word: more === undefined ? BigInt(refusal) : wordOf(refusal, more) }
}

const onHead = ([, argument, head, answers, clocks, refusal, value, entries, taken, journal, headAfter, clocksAfter]) => {
  const kept = [[ARGUMENT, hex(argument)], [ANSWERS, hex(answers, 2)], [JOURNAL, new Uint8Array(4 * journalWords).fill(0xFF)]]
  return {
    before: [...kept, [HEAD, hex(head)], [CLOCKS, hex(clocks, 4)]],
    after: [...kept, [HEAD, hex(headAfter)], [CLOCKS, hex(clocksAfter, 4)], [JOURNAL, hex(journal, 4)]],
    word: wordOf(refusal, value) | BigInt(entries) << 32n | BigInt(taken) << 48n
  }
}

let drawn = 1
const draw = (below) => (drawn = drawn * 48271 % 2147483647) % below

const replay = (row, line) => {
  const [name, exported, kind, clocks, ...words] = row
  const fields = line.split(' ')
  if (fields[0] !== name) return false
  const { before, after, word } = kind === 'ON_HEAD' ? onHead(fields) : reading(fields, clocks !== '0')
  const lengths = Object.fromEntries(before.map(([at, bytes]) => [at, bytes.length]))
  area.set(image(before))
  let answer = BigInt.asUintN(64, exports[exported](...words.flatMap((word) => passed(word, before[0][1], lengths))))
  if (planted && draw(6) === 0) answer ^= 1n << BigInt(draw(64))
  else if (planted) area[draw(area.length)] ^= 1 << draw(8)
  return answer === word && Buffer.compare(area, image(after)) === 0
}

for (const [, row] of readFileSync(rows, 'utf8').matchAll(/^CALL\((.*)\)$/gm)) {
  const words = row.split(', ')
  const lines = readFileSync(`${folder}/${words[0]}.txt`, 'utf8').trimEnd().split('\n')
  const different = lines.filter((line) => !replay(words, line)).length
  console.log(`${words[0]}: ${lines.length} replayed, ${different} different`)
}
