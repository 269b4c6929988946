// The engine, as those who choose where it comes from and how much memory it has see it.

import { EngineMissing, OutOfMemory } from "./errors.js";
import { Machine } from "./machine.js";

/**
 * What an engine does, for this package alone.
 * @type {(engine: Engine) => Machine}
 */
export let machineOf;

/** The engine in a memory of its own, which all of its sessions share. */
export class Engine {
  #machine;

  static {
    machineOf = (engine) => engine.#machine;
  }

  /**
   * @private
   * @param {Machine} machine
   */
  constructor(machine) {
    this.#machine = machine;
  }

  /**
   * Loads an engine: of the module beside this file, or of another URL, of bytes or of a compiled module. With `maxMemory` its memory is never
   * more than so many bytes, and what wants more throws OutOfMemory. Throws EngineMissing where there is no such module.
   * @param {WebAssembly.Module | BufferSource | URL | string} [source]
   * @param {{ maxMemory?: number }} [options]
   */
  static async load(source = new URL("fact_graph.wasm", import.meta.url), options = {}) {
    const machine = await machineFrom(source);
    if (options.maxMemory !== undefined) machine.keepBelow(options.maxMemory);
    return new Engine(machine);
  }

  /** The bytes of the memory. It never becomes less. */
  get memorySize() {
    return this.#machine.memorySize;
  }

  /** Whether the engine stopped, so that it can't be used again. */
  get hasStopped() {
    return this.#machine.hasStopped;
  }
}

/**
 * A machine of a module.
 * @param {WebAssembly.Module | BufferSource | URL | string} source
 */
async function machineFrom(source) {
  try {
    return new Machine(await WebAssembly.instantiate(await compiled(source), {}));
  } catch (cause) {
    if (cause instanceof OutOfMemory) throw cause;
    const place = source instanceof URL || typeof source === "string" ? ` at ${source}` : "";
    throw new EngineMissing(`no engine${place}: ${cause}`, { cause });
  }
}

/**
 * A compiled module.
 * @param {WebAssembly.Module | BufferSource | URL | string} source
 */
async function compiled(source) {
  if (source instanceof WebAssembly.Module) return source;
  if (!(source instanceof URL) && typeof source !== "string") return WebAssembly.compile(source);
  const url = new URL(source, import.meta.url);
  if (url.protocol === "file:") {
    const files = "node:fs/promises"; // (a name that a bundler for pages doesn't look for)
    const { readFile } = await import(files);
    return WebAssembly.compile(await readFile(url));
  }
  const response = await fetch(url);
  if (!response.ok) throw new Error(`${url}: ${response.status} ${response.statusText}`);
  // the streaming compiler, which begins before the last byte has come, takes this type alone
  if (response.headers.get("Content-Type") === "application/wasm") return WebAssembly.compileStreaming(response);
  return WebAssembly.compile(await response.arrayBuffer());
}

