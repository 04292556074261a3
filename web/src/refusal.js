// Error messages about files: what to do about one, and the record that it is about.
import { adviceOn } from './advice.js';
import { lineOfRecord } from './csv.js';
import { badLine, byId, note } from './elements.js';

// Shows an error message, and advice on it, in the element with this id.
export function showError(id, message) {
    const advice = adviceOn(message);
    byId(id).replaceChildren(badLine(message), ...(advice ? [note(advice)] : []));
}

// Shows an error message about a file in CSV. In the editor of the file, if one is given, its record is marked.
export function refuse(id, message, editor) {
    const record = /^(?:work file|trace|demand file) line (\d+):/.exec(message);
    editor?.blame(record ? lineOfRecord(editor.text(), Number(record[1])) : -1);
    showError(id, message);
}
