// Where pins lie around a drum. Nothing here knows of a page.

/** Half of the head, with what is left free beside it; and how often pins are set apart at most. */
const [HEAD, ROUNDS] = [60, 300];

export const inRadians = (degrees) => (degrees * Math.PI) / 180;

/** An angle from -180 to 180 degrees. */
export const turned = (degrees) => (((degrees % 360) + 540) % 360) - 180;

/** A place in a drawing of this size, or the next one to it where a pin of a width and height is whole in the drawing. */
export const within = ([x, y], { width, height }, [right, bottom]) => [
    Math.min(right - width / 2, Math.max(width / 2, x)), Math.min(bottom - height / 2, Math.max(height / 2, y)),
];

/** How many degrees two pins have to be apart that lie at about an angle. */
function roomFor(angle, one, other, distanceOf) {
    const [width, height] = [(one.width + other.width) / 2 + 6, (one.height + other.height) / 2 + 6];
    const distance = Math.min(
        width / Math.max(0.01, Math.abs(Math.cos(inRadians(angle)))), height / Math.max(0.01, Math.abs(Math.sin(inRadians(angle))))
    );
    return (distance / distanceOf(angle, one)) * (180 / Math.PI);
}

/**
 * The angles of pins as near to their sectors' as can be: none lies upon another one, and none upon the head, but on its sector's side of
 * it. `distanceOf` is how far from the centre a pin lies at an angle.
 */
export function apart(pins, distanceOf) {
    const set = pins.map((pin) => ({ ...pin, own: turned(pin.angle), angle: turned(pin.angle) })).sort((one, other) => one.own - other.own);
    /** Sets a pin beside the head. Whether it lay upon it. */
    const fromHead = (pin) => {
        const least = (Math.asin((HEAD + pin.width / 2) / (distanceOf(0, pin) + 20)) * 180) / Math.PI;
        const isUpon = Math.abs(pin.angle) < least - 0.01;
        if (isUpon) pin.angle = pin.own < 0 ? -least : least;
        return isUpon;
    };
    let isMoved = true;
    for (let round = 0; isMoved && round < ROUNDS; round += 1) {
        isMoved = false;
        for (const [place, pin] of set.entries()) {
            const next = set[(place + 1) % set.length];
            const between = place + 1 < set.length ? next.angle - pin.angle : next.angle + 360 - pin.angle;
            const missing = next === pin
                ? 0
                : Math.max(roomFor(pin.angle, pin, next, distanceOf), roomFor(next.angle, pin, next, distanceOf)) - between;
            if (missing <= 0.01) continue;
            isMoved = true;
            pin.angle -= missing / 2;
            next.angle += missing / 2;
        }
        // a pin that was set beside the head may now lie upon its neighbour: that is looked at again
        for (const pin of set) isMoved = fromHead(pin) || isMoved;
    }
    return new Map(set.map((pin) => [pin.name, turned(pin.angle)]));
}
