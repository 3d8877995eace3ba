// The scripts of the build: what they refuse, and what they write.

import assert from 'node:assert/strict';
import { spawnSync } from 'node:child_process';
import { mkdirSync, mkdtempSync, readFileSync, rmSync, writeFileSync } from 'node:fs';
import { tmpdir } from 'node:os';
import { join } from 'node:path';
import { after, test } from 'node:test';
import { fileURLToPath } from 'node:url';
import { ROOT } from './library.mjs';

const folder = mkdtempSync(join(tmpdir(), 'scripts-'));
after(() => rmSync(folder, { recursive: true }));

// Runs a script of web/lib. Answers its status and what it wrote.
function awk(script, words, input = '') {
  const file = fileURLToPath(new URL(`web/lib/${script}`, ROOT));
  const { status, stdout, stderr } = spawnSync('awk', ['-f', file, ...words], { input, encoding: 'utf8' });
  return { status, stdout, stderr };
}

test('text that depends on the length of a pointer is refused', () => {
  const good = 'define void @f() #0 {\n  %r1 = alloca ptr, align 8\n  %r2 = alloca [16 x i8], align 8\n';
  const lines = {
    '  store ptr %a0, ptr %r1, align 8': 0,
    '  %r3 = load ptr, ptr %r1, align 8, !noundef !2': 0,
    '  %r4 = getelementptr inbounds nuw i8, ptr %r2, i64 8': 0,
    '  %r3 = load i64, ptr %r1, align 8': 1,
    '  call void @llvm.memmove.p0.p0.i64(ptr %r2, ptr %r1, i64 8, i1 false)': 1,
    '  store ptr %r1, ptr %r2, align 8': 1,
    '  %r4 = getelementptr ptr, ptr %r2, i64 1': 1,
    '  %r4 = getelementptr { ptr, ptr }, ptr %r2, i32 0, i32 1': 1,
    '  %r5 = alloca { ptr, i64 }, align 8': 1,
    '  %r5 = ptrtoint ptr %r2 to i64': 1,
    '  %r5 = ptrtoaddr ptr %r2 to i64': 0,
    '  %r5 = ptrtoaddr ptr %r1 to i64': 1,
    '  %r5 = ptrtoaddr ptr %r2 to i32': 1,
    '  call void asm "nop", ""()': 1,
    '  %r5 = load { ptr, i64 }, ptr %r2, align 8': 0,
    '  %r5 = load { i8, i64 }, ptr %r2, align 8': 0,
    '  %r5 = load { i8, ptr }, ptr %r2, align 8': 0,
    '  %r5 = load { ptr, i8 }, ptr %r2, align 8': 1,
    '  %r5 = load { ptr, ptr }, ptr %r2, align 8': 1,
    '  %r5 = load { i8, { i8, ptr } }, ptr %r2, align 8': 1,
    '  %r5 = load [2 x ptr], ptr %r2, align 8': 1,
    '  store { i8, ptr } %r4, ptr %r2, align 8': 1,
  };
  for (const [line, status] of Object.entries(lines)) assert.equal(awk('layout.awk', [], `${good}${line}\n}\n`).status, status, line);
  assert.equal(awk('layout.awk', [], '').status, 1);
});

test('an address becomes a number of 64 bits from a pointer of 4 bytes', () => {
  const text = 'target triple = "x86_64"\n  %r5 = ptrtoaddr ptr %a0 to i64\n  ret void\nattributes #0 = { nounwind "target-cpu"="x86-64-v2" }\n';
  const narrowed = awk('narrow.awk', [], text);
  const due = '  %r5.short = ptrtoaddr ptr %a0 to i32\n  %r5 = zext i32 %r5.short to i64\n  ret void\nattributes #0 = { nounwind }\n';
  assert.deepEqual([narrowed.status, narrowed.stdout], [0, due]);
  assert.equal(awk('narrow.awk', [], '  %r5 = ptrtoaddr ptr %a0 to i32\n').status, 1);
});

test('a byte and a pointer are loaded from 8 bytes apart', () => {
  const narrowed = awk('narrow.awk', [], '  %r5 = load { i8, ptr }, ptr %r0, align 8\n');
  const due = `  %r5.byte = load i8, ptr %r0, align 8
  %r5.place = getelementptr i8, ptr %r0, i64 8
  %r5.pointer = load ptr, ptr %r5.place, align 8
  %r5.half = insertvalue { i8, ptr } poison, i8 %r5.byte, 0
  %r5 = insertvalue { i8, ptr } %r5.half, ptr %r5.pointer, 1
`;
  assert.deepEqual([narrowed.status, narrowed.stdout], [0, due]);
  assert.equal(awk('narrow.awk', [], '  store { i8, ptr } %r4, ptr %r0, align 8\n').status, 1);
});

// Inlines modules that are given by their names.
function inlined(files, kind = 'module') {
  for (const [name, text] of Object.entries(files)) {
    mkdirSync(join(folder, name, '..'), { recursive: true });
    writeFileSync(join(folder, name), text);
  }
  return awk('inline.awk', ['-v', `entry=${join(folder, 'main.mjs')}`, '-v', `kind=${kind}`]);
}

test('modules are inlined with scopes of their own, each once', async () => {
  const files = {
    'deep/a.mjs': 'const own = 1;\nexport const A = own;\nexport function twice(x) {\n  return 2 * x;\n}\n',
    'b.mjs': `import { A, twice as double } from './deep/a.mjs';
const own = 5;
export class B {
  value = double(A) + own;
}
export function* steps() {
  yield A;
}
`,
    'main.mjs': `import {
  B,
  steps,
} from './b.mjs';
export { A, twice as pair } from './deep/a.mjs';
export async function answer() {
  return new B().value + [...steps()][0];
}
`,
  };
  const { status, stdout, stderr } = inlined(files);
  assert.equal(status, 0, stderr);
  assert.ok(!stdout.includes('import '));
  const module = await import(`data:text/javascript,${encodeURIComponent(stdout)}`);
  assert.deepEqual([module.A, module.pair(4), await module.answer()], [1, 8, 8]);
  const script = inlined({ 'main.mjs': "import { A } from './deep/a.mjs';\nglobalThis.answered = A + 1;\n" }, 'script');
  assert.ok(!script.stdout.includes('export '));
  new Function(script.stdout)();
  assert.equal(globalThis.answered, 2);
});

test('modules in another form are refused', () => {
  const wrong = {
    'not understood': "import * as a from './deep/a.mjs';\n",
    'not understood: import a': "import a from './deep/a.mjs';\n",
    'not understood: export default': 'export default 1;\n',
    'cannot be read': "import { a } from './none.mjs';\n",
    'in a cycle': "import { a } from './main.mjs';\n",
  };
  for (const [words, text] of Object.entries(wrong)) {
    const { status, stderr } = inlined({ 'main.mjs': text });
    assert.equal(status, 1, text);
    assert.ok(stderr.includes(words), stderr);
  }
});

test('a page with a tag inside a text, or without its elements, is refused', () => {
  const template = readFileSync(new URL('web/page/page.html', ROOT), 'utf8');
  const write = (name, text) => writeFileSync(join(folder, name), text);
  const page = (text) => awk('page.awk', ['-v', `parts=${folder}`, '-v', `folder=${folder}`], text);
  write('style.css', 'p { margin: 0; }\n');
  write('main', 'run();\n');
  write('wasm', 'AGFzbQ==');
  write('examples', '{}\n');
  const good = page(template);
  assert.equal(good.status, 0, good.stderr);
  for (const part of ['<style>\np { margin: 0; }\n</style>', '<script type="module">\nrun();\n</script>', 'id="sitgurp-wasm">AGFzbQ==\n</script>']) {
    assert.ok(good.stdout.includes(part), part);
  }
  assert.ok(!good.stdout.includes('data-inline'));
  assert.equal(page(template.replace('id="sitgurp-wasm"', 'id="other"')).status, 1);
  write('main', "text = '</script>';\n");
  assert.equal(page(template).status, 1);
});
