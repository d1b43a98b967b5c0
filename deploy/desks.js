// What the front hands on to the office: a question of its form, and an act of a desk that is among
// those of the person who asks; and to the adapter of a lane another batch, by who has that lane.
// Run by nginx (njs 0.7).
//
// `/rows/NUMBER` isn't among the questions: shipments are asked at the standby's own door, so that
// nobody at the front fills that door or a desk's with the bytes of the whole book.

import fs from 'fs';

const QUESTION = new RegExp('^/hall/(summary|acts/[0-9]{1,20}|lanes/[0-9]{1,3}' +
    '|packs/[0-9]{1,20}|batches/[A-Za-z0-9._-]{1,32}(/sample|/packs/[0-9]{1,20})?)$');
const ACTS = '/hall/acts';
const CHANGE = new RegExp('^/lane/([1-9]|1[0-6])/batch$');

// The body of an act, as far as the front reads it: one flat object. Its texts may have the escapes
// of JSON, as a reason that somebody typed; names of members have none. Anything that the office
// might read otherwise than this is refused.
const BLANK = '[ \\t\\r\\n]*';
const ESCAPE = '\\\\(?:["\\\\/bfnrt]|u[0-9A-Fa-f]{4})';
const TEXT = '"[^"\\\\]*(?:' + ESCAPE + '[^"\\\\]*)*"';
const MEMBER = '"[a-z]+"' + BLANK + ':' + BLANK + '(?:' + TEXT + '|[0-9]+)';
const BODY = new RegExp('^' + BLANK + '\\{' + BLANK + MEMBER +
    '(?:' + BLANK + ',' + BLANK + MEMBER + ')*' + BLANK + '\\}' + BLANK + '$');
const CHANGED = new RegExp('^' + BLANK + '\\{' + BLANK + '"batch"' + BLANK + ':' + BLANK +
    '"([A-Za-z0-9][A-Za-z0-9._-]{0,31})"' + BLANK + '\\}' + BLANK + '$');
// The texts of members, which are taken out before a desk is looked for, since one may speak of it.
const SAID = new RegExp(':' + BLANK + TEXT, 'g');
const DESK = new RegExp('"desk"' + BLANK + ':' + BLANK + '([0-9]{1,5})[^0-9]', 'g');

// A name as hall-person lets people in, and the line of one who acts, as: anna "101 102 1"; where
// numbers up to 16 are lanes.
// Passwords of other names, which differ in capitals alone from one of these, are none to act by.
const NAME = new RegExp('^[a-z0-9][a-z0-9._-]*$');
const LINE = new RegExp('^([a-z0-9._-]+) "([0-9 ]*)";$');

// Milliseconds for which a free door is waited for, and between two looks for one: at first, and at
// most, so that many who wait don't look all the time.
const PATIENCE = 10000;
const FIRST_PAUSE = 5;
const LONGEST_PAUSE = 150;

// The desk of an act, or nothing where it can't be read.
function deskOf(body) {
    const found = BODY.test(body) ? body.replace(SAID, ':""').match(DESK) : null;
    return found && found.length === 1 ? found[0].replace(/[^0-9]/g, '') : null;
}

const MOST_LANES = 16;

// The desks and lanes of a person, read anew for each act, so that a changed line counts at once.
function desksOf(r) {
    const name = r.variables.remote_user || '';
    const text = NAME.test(name) ? fs.readFileSync(`${r.variables.front}/desks`, 'utf8') : '';
    const lines = text.split('\n').map((line) => line.match(LINE));
    const found = lines.filter((line) => line !== null && line[1] === name);
    return found.length === 1 ? found[0][2].split(' ') : [];
}

// Whether a person has a desk, or may only look: for what writes into the archive.
function hasDesk(r) {
    try {
        return desksOf(r).some((desk) => Number(desk) > MOST_LANES) ? 'yes' : 'no';
    } catch (fault) {
        r.error(`the desks can't be read: ${fault.message}`);
        return 'no';
    }
}

// Whether a number is among those of the person who asks.
function isAmongTheirs(r, number) {
    try {
        return desksOf(r).indexOf(number) >= 0;
    } catch (fault) {
        r.error(`the desks can't be read: ${fault.message}`);
        return false;
    }
}

function isTheirs(r) {
    const desk = deskOf(r.requestText || '');
    return desk !== null && Number(desk) > MOST_LANES && isAmongTheirs(r, desk);
}

function pause(time) {
    return new Promise((go) => setTimeout(go, time * (0.5 + Math.random())));
}

// Whether no door was free, so that nothing was sent to one.
function isBusy(reply) {
    return reply.status === 502 && reply.variables.upstream_addr === reply.variables.doors;
}

async function handOn(r) {
    const options = r.method === 'POST' ? { method: 'POST', body: r.requestText } : {};
    const path = '/door' + r.uri.slice('/hall'.length);
    const end = Date.now() + PATIENCE;
    let reply = await r.subrequest(path, options);
    for (let wait = FIRST_PAUSE; isBusy(reply) && Date.now() < end; wait *= 2) {
        await pause(Math.min(wait, LONGEST_PAUSE));
        reply = await r.subrequest(path, options);
    }
    return reply;
}

async function pass(r) {
    const isAct = r.uri === ACTS;
    if (!isAct && !QUESTION.test(r.uri)) return r.return(404);
    if (r.method !== (isAct ? 'POST' : 'GET')) return r.return(405);
    if (isAct && !isTheirs(r)) return r.return(403);
    const reply = await handOn(r);
    r.headersOut['Cache-Control'] = 'no-store';
    r.headersOut['Content-Type'] = reply.headersOut['Content-Type'];
    if (reply.headersOut['Book-Row']) r.headersOut['Book-Row'] = reply.headersOut['Book-Row'];
    // so that a page which was open over a change of the book sees it
    r.headersOut['Book-Name'] = r.variables.book;
    r.return(reply.status, reply.responseText);
}

// Says another batch to the adapter of a lane, which keeps it and hands it on to the hall.
async function change(r) {
    const found = r.uri.match(CHANGE);
    if (!found) return r.return(404);
    if (r.method !== 'POST') return r.return(405);
    if (!isAmongTheirs(r, found[1])) return r.return(403);
    const named = (r.requestText || '').match(CHANGED);
    if (!named) return r.return(400);
    const body = JSON.stringify({ batch: named[1] });
    const reply = await r.subrequest(`/adapter/${found[1]}`, { method: 'POST', body });
    r.headersOut['Cache-Control'] = 'no-store';
    r.headersOut['Content-Type'] = 'application/json';
    r.return(reply.status, reply.status === 200 ? reply.responseText : '');
}

export default { pass, change, hasDesk };
