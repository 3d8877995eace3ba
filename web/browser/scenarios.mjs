// All scenarios in the order in which they run: a name, and what a person does.
import { access } from './scenarios/access.mjs';
import { compare } from './scenarios/compare.mjs';
import { drawing } from './scenarios/draw.mjs';
import { files } from './scenarios/files.mjs';
import { glyph } from './scenarios/glyph.mjs';
import { large } from './scenarios/large.mjs';
import { random } from './scenarios/random.mjs';
import { sent } from './scenarios/sent.mjs';
import { take } from './scenarios/take.mjs';
import { trees } from './scenarios/tree.mjs';

export const scenarios = [...drawing, ...trees, ...files, ...compare, ...glyph, ...take, ...sent, ...large, ...access, ...random];
