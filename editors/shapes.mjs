// @ts-check
// What a message has to have: its parts are checked where it comes in, so that a mistake is told as what is wanted there.

/** A part of a message that is not what is wanted. */
export class Misshapen extends Error {}

/** @typedef {(value: any, name: string) => any} Shape  gives the value, without what is null where nothing is needed; throws Misshapen */

/**
 * @param {(value: any) => boolean} isRight
 * @param {string} wanted
 * @returns {Shape}
 */
export const such = (isRight, wanted) => (value, name) => {
    if (!isRight(value)) throw new Misshapen(`${name} is to be ${wanted}`);
    return value;
};

export const text = such((value) => typeof value === "string", "a text");
export const named = such((value) => typeof value === "string" && value !== "", "a text that is not empty");
export const flag = such((value) => typeof value === "boolean", "true or false");
export const whole = such(Number.isSafeInteger, "a whole number");
export const count = such((value) => Number.isSafeInteger(value) && value >= 0, "a whole number that is not negative");
export const anything = such(() => true, "");

/**
 * A whole number up to a bound.
 * @param {number} most
 */
export const upTo = (most) => such(
    (value) => Number.isSafeInteger(value) && value >= 0 && value <= most, `a whole number from 0 to ${most}`
);

/**
 * One of some texts.
 * @param {readonly string[]} texts
 */
export const oneOf = (texts) => such((value) => texts.includes(value), texts.join(" or "));

/**
 * What may be left out.
 * @param {Shape} shape
 * @returns {Shape}
 */
export const maybe = (shape) => (value, name) => (value === undefined || value === null ? undefined : shape(value, name));

/**
 * @param {Shape} shape
 * @returns {Shape}
 */
export const listOf = (shape) => (value, name) => such(Array.isArray, "a list")(value, name).map((
    /** @type {any} */ each, /** @type {number} */ at
) => shape(each, `${name}[${at}]`));

/**
 * What has parts with these names; others are kept as they are.
 * @param {Record<string, Shape>} shapes
 * @returns {Shape}
 */
export const record = (shapes) => (value, name) => {
    such((it) => typeof it === "object" && it !== null && !Array.isArray(it), "an object")(value, name === "" ? "all of it" : name);
    const parts = Object.entries(shapes).map(([key, shape]) => [key, shape(value[key], name === "" ? key : `${name}.${key}`)]);
    return { ...value, ...Object.fromEntries(parts) };
};
