/** Numbers that look as if by chance, the same for each seed. */
export function chance(seed) {
    let state = seed >>> 0;
    const next = () => {
        state = (Math.imul(state, 1_664_525) + 1_013_904_223) >>> 0;
        return state / 2 ** 32;
    };
    return { below: (count) => Math.floor(next() * count), of: (things) => things[Math.floor(next() * things.length)] };
}
