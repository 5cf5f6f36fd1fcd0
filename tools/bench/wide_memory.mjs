// Lets a memory with addresses of 64 bits grow by a number of pages that is no BigInt, as node 20 does and later ones do not.
const { grow } = WebAssembly.Memory.prototype;

WebAssembly.Memory.prototype.grow = function (pages) {
    try {
        return grow.call(this, pages);
    } catch (refusal) {
        if (!(refusal instanceof TypeError)) throw refusal;
        return Number(grow.call(this, BigInt(pages)));
    }
};
