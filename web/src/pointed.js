// The line of the text that something beside it points to: one at a time, as long as the text is the same.
// Tried by web/test/classes.mjs and web/test/warnings.mjs.

const pointed = { line: -1, text: '', isNew: false };

export const pointTo = (line, text) => Object.assign(pointed, { line, text, isNew: true });
export const pointNowhere = () => Object.assign(pointed, { line: -1, isNew: false });
export const pointedLine = text => (pointed.text === text ? pointed.line : -1);
// Whether it is to be brought into sight; it is so once.
export function isNewlyPointed() {
  const { isNew } = pointed;
  pointed.isNew = false;
  return isNew;
}
