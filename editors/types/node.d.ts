// What these programs use of node, of a worker in a browser, and of VS Code, as far as types are looked at: Debian has no package with those types.
interface Buffer extends Uint8Array {
    subarray(from?: number, to?: number): Buffer;
    toString(coding?: string): string;
}
declare const Buffer: {
    from(data: string | ArrayLike<number> | Uint8Array, coding?: string): Buffer;
    concat(pieces: readonly Uint8Array[]): Buffer;
};
declare const process: any;
declare const require: (name: string) => any;
declare const importScripts: unknown;
declare module "node:child_process";
declare module "node:events";
declare module "node:readline";
declare module "node:fs" {
    export function readFileSync(path: string | URL, coding: "utf8"): string;
    export function readFileSync(path: string | URL): Uint8Array;
    export function writeFileSync(path: string | URL, data: string | Uint8Array): void;
    export function existsSync(path: string | URL): boolean;
    export const realpathSync: { native(path: string): string };
    export const appendFileSync: any, closeSync: any, fsyncSync: any, mkdirSync: any, openSync: any, readSync: any, readdirSync: any, renameSync: any, rmSync: any, statSync: any, writeSync: any;
}
declare module "node:fs/promises" {
    export function readFile(path: string): Promise<Uint8Array>;
}
declare module "node:os" {
    export function homedir(): string;
}
declare module "node:path" {
    export function resolve(...parts: string[]): string;
    export function dirname(path: string): string;
    export function join(...parts: string[]): string;
}
declare module "node:worker_threads" {
    export const parentPort: any;
    export class Worker {
        constructor(path: string);
        on(event: string, hear: (value: any) => void): void;
        postMessage(message: any): void;
        terminate(): void;
    }
}
declare module "vscode";
declare module "#module" {
    export const bytes: Uint8Array;
}
declare module "*.wasm" {
    const bytes: Uint8Array;
    export default bytes;
}
