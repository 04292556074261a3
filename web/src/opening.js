// Where the modules and the worker come from: from elements of the page itself, which is one file.

function compiled(id) {
    const letters = atob(document.getElementById(id).textContent.trim());
    return WebAssembly.compile(Uint8Array.from(letters, (letter) => letter.charCodeAt(0)));
}

// The module of the commands, and the module of the calls for sets of numbers.
export async function openModules() {
    return { module: await compiled('module'), sets: await compiled('sets') };
}

export function newWorker() {
    const address = URL.createObjectURL(new Blob([document.getElementById('worker').textContent], { type: 'text/javascript' }));
    const worker = new Worker(address);
    URL.revokeObjectURL(address);
    return worker;
}
