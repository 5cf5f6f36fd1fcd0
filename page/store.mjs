// Where the browser keeps what people have written: in its database, or, where it has none, in its storage, or nowhere. Values are kept by
// their names.

const [DATABASE, SHELF, PREFIX] = ["condugwa", "kept", "condugwa/"];

/**
 * The changes of the last moment, which a database may have no time for any more: each tab has a record of its own, whose name begins so.
 */
const LAST_MOMENT = `${PREFIX}last-moment`;

/** How long is waited for a database to open. */
const LONGEST_WAIT = 3000;

const answered = (request) => new Promise((resolve, reject) => {
    request.onsuccess = () => resolve(request.result);
    request.onerror = () => reject(request.error);
});

/** Values in the browser's database. */
class Database {
    #database;

    constructor(database) {
        this.#database = database;
    }

    static async open(factory) {
        const request = factory.open(DATABASE, 1);
        request.onupgradeneeded = () => request.result.createObjectStore(SHELF);
        const late = new Promise((resolve, reject) => { setTimeout(() => reject(new Error("the database does not open")), LONGEST_WAIT); });
        return new Database(await Promise.race([answered(request), late]));
    }

    async all() {
        const shelf = this.#database.transaction(SHELF).objectStore(SHELF);
        const [names, values] = await Promise.all([answered(shelf.getAllKeys()), answered(shelf.getAll())]);
        return new Map(names.map((name, place) => [name, values[place]]));
    }

    write(changes) {
        const transaction = this.#database.transaction(SHELF, "readwrite");
        const shelf = transaction.objectStore(SHELF);
        for (const [name, value] of changes) {
            if (value === null) shelf.delete(name);
            else shelf.put(value, name);
        }
        transaction.commit?.();
        return new Promise((resolve, reject) => {
            transaction.oncomplete = () => resolve();
            for (const kind of ["onabort", "onerror"]) transaction[kind] = () => reject(transaction.error);
        });
    }
}

const namesIn = (storage) => Array.from({ length: storage.length }, (unused, place) => storage.key(place));

/** Values in the browser's storage, as JSON. */
class Shelf {
    #storage;

    constructor(storage) {
        this.#storage = storage;
    }

    async all() {
        const names = namesIn(this.#storage).filter((name) => name.startsWith(PREFIX) && !name.startsWith(LAST_MOMENT));
        return new Map(names.map((name) => [name.slice(PREFIX.length), JSON.parse(this.#storage.getItem(name))]));
    }

    async write(changes) {
        for (const [name, value] of changes) {
            if (value === null) this.#storage.removeItem(PREFIX + name);
            else this.#storage.setItem(PREFIX + name, JSON.stringify(value));
        }
    }
}

/** A storage that can be had, or null. */
function had(storage) {
    try {
        return storage() ?? null;
    } catch {
        return null;
    }
}

/** The first of several that does not fail, or null. */
async function firstOf(actions) {
    for (const action of actions) {
        try {
            const store = await action();
            return { store, values: await store.all() };
        } catch {
            // the next one is tried
        }
    }
    return null;
}

/**
 * What is kept: its values by their names, those of them that were written in a last moment alone, what another tab wrote under the same
 * names in its last moment, and what writes changes. `database` and `storage` give those of the browser; they may fail.
 */
export async function openStore({ database, storage }) {
    const shelf = had(storage);
    const found = await firstOf([() => Database.open(database()), () => new Shelf(shelf)]);
    const values = found?.values ?? new Map();
    const left = recordsIn(shelf);
    const changes = left.flatMap((record) => record.changes);
    const unwritten = new Map(changes);
    const replaced = changes.filter(([name, value]) => unwritten.get(name) !== value);
    for (const [name, value] of unwritten) {
        if (value === null) values.delete(name);
        else values.set(name, value);
    }
    const own = `${LAST_MOMENT}/${Date.now().toString(36)}-${Math.random().toString(36).slice(2)}`;
    const read = left.map(({ name }) => name);
    return {
        values,
        unwritten,
        replaced,
        isKept: found !== null,
        write: async (changes) => found?.store.write(changes),
        writeAtLast: (last) => writeAtLast(shelf, own, read, last),
    };
}

/** The records of a last moment that tabs have left, the oldest tab's first, each with its name and its changes. */
function recordsIn(shelf) {
    try {
        return namesIn(shelf)
            .filter((name) => name.startsWith(LAST_MOMENT))
            .sort()
            .map((name) => ({ name, changes: changesIn(shelf, name) }));
    } catch {
        return [];
    }
}

function changesIn(shelf, name) {
    try {
        return JSON.parse(shelf.getItem(name)) ?? [];
    } catch {
        return [];
    }
}

/**
 * Writes changes at once to a tab's own record, as far as the storage takes them; none takes away what was written so. The records that
 * were read when the page was opened go with that: what they say is among the changes, or written.
 */
function writeAtLast(shelf, own, read, changes) {
    try {
        if (changes.size > 0) shelf.setItem(own, JSON.stringify([...changes]));
        else shelf.removeItem(own);
        for (const name of read) shelf.removeItem(name);
    } catch {
        // the database has been asked as well
    }
}
