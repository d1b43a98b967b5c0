// The pages as the front sends them: without their comments, the blanks before a line, and in a
// style those beside its marks, which are for whoever changes them. The files stay as they are, and
// each line keeps its number. Run by nginx (njs 0.7).

const SCRIPT = 'application/javascript';
const STYLE = 'text/css';
const BLANKS = new RegExp('^[ \\t]+', 'gm');
// A comment that has whole lines to itself.
const OF_SCRIPT = new RegExp('^//.*$', 'gm');
const OF_STYLE = new RegExp('^/\\*[\\s\\S]*?\\*/$', 'gm');
// Blanks of a style that part nothing.
const AFTER = new RegExp('([:;,{]) ', 'g');
const BEFORE = new RegExp(' ([{}])', 'g');

// What came of this answer so far; each answer has a memory of its own.
let held = '';

function isSlimmed(r) {
    const kind = r.headersOut['Content-Type'] || '';
    return kind.startsWith(SCRIPT) || kind.startsWith(STYLE);
}

function slimmed(text, kind) {
    const isStyle = kind.startsWith(STYLE);
    const lines = (comment) => comment.replace(/[^\n]+/g, '');
    const bare = text.replace(BLANKS, '').replace(isStyle ? OF_STYLE : OF_SCRIPT, lines);
    return isStyle ? bare.replace(AFTER, '$1').replace(BEFORE, '$1') : bare;
}

// The length of a slimmed answer isn't that of its file.
function measure(r) {
    if (isSlimmed(r)) {
        delete r.headersOut['Content-Length'];
    }
}

function slim(r, data, flags) {
    if (!isSlimmed(r)) {
        r.sendBuffer(data, flags);
        return;
    }
    held += data;
    if (flags.last) {
        r.sendBuffer(slimmed(held, r.headersOut['Content-Type']), flags);
    }
}

export default { measure, slim };
