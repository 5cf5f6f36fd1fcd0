// The page's sound, made by the page itself: the strokes of the typewriter, and a hum that follows the drum's work. It is off until it is
// switched on, and while nobody sees the page.
import { SECTORS } from "./addresses.mjs";
import { WORD_TIME } from "./drive.mjs";

/**
 * The hum in each phase, in hertz. At its own pace it is that of the drum: as many swings as turns; what goes faster still sounds an octave
 * above that.
 */
const TURNS = 1000 / WORD_TIME / SECTORS;
const HUM = { find: 82, take: 123, seek: 98, act: 110, own: TURNS, fast: 2 * TURNS };
const LOUD = { hum: 0.05, stroke: 0.25 };
const GLIDE_SECONDS = 0.04;
/** How long a stroke sounds, how far strokes are apart, and how many of those printed at once are heard. */
const STROKE = { seconds: 0.05, apart: 0.09, most: 6 };
/** How long a return of the carriage sounds: how much slower its noise is played than that of a stroke, and how loud it is. */
const RETURN = { seconds: 0.28, slower: 0.18, loud: 0.12 };

/** Strokes and hum over an audio context, which is made when the sound is switched on first. */
export class Sound {
    isOn = false;

    #makeContext;
    #context = null;
    #hum = null;
    #noise = null;
    #kind = null;
    #free = 0;

    constructor(makeContext) {
        this.#makeContext = makeContext;
    }

    /** Switches the sound on or off. */
    switchTo(isOn) {
        this.isOn = isOn;
        if (isOn && this.#context === null) this.#open();
        if (isOn) this.#context.resume();
        else this.#context?.suspend();
    }

    /** The page is hidden or seen again: while it is hidden nothing sounds. */
    hide(isHidden) {
        if (!this.isOn) return;
        if (isHidden) this.#context.suspend();
        else this.#context.resume();
    }

    #open() {
        this.#context = this.#makeContext();
        const { destination, sampleRate } = this.#context;
        const [tone, volume] = [this.#context.createOscillator(), this.#context.createGain()];
        volume.gain.value = 0;
        // its overtones are heard where a small loudspeaker cannot swing so slowly
        tone.type = "triangle";
        tone.connect(volume).connect(destination);
        tone.start();
        this.#hum = { tone, volume };
        this.#noise = this.#context.createBuffer(1, Math.ceil(STROKE.seconds * sampleRate), sampleRate);
        const samples = this.#noise.getChannelData(0);
        for (let at = 0; at < samples.length; at += 1) samples[at] = (2 * Math.random() - 1) * Math.exp((-6 * at) / samples.length);
        this.#kind = null;
    }

    /** The drum works in this phase, or turns too fast to be read, or rests where the kind is null. */
    work(kind) {
        if (!this.isOn || kind === this.#kind) return;
        this.#kind = kind;
        const { currentTime } = this.#context;
        if (kind !== null) this.#hum.tone.frequency.setTargetAtTime(HUM[kind], currentTime, GLIDE_SECONDS);
        this.#hum.volume.gain.setTargetAtTime(kind === null ? 0 : LOUD.hum, currentTime, GLIDE_SECONDS);
    }

    /** So many signs were printed: a stroke for each, one after another, but for what is too much at once. */
    strokes(count) {
        if (!this.isOn) return;
        for (let stroke = 0; stroke < Math.min(count, STROKE.most); stroke += 1) this.#play(LOUD.stroke, 1, STROKE.apart);
    }

    /** The carriage goes back to the beginning of a line, and stops there. */
    goBack() {
        if (!this.isOn) return;
        this.#play(RETURN.loud, RETURN.slower, RETURN.seconds);
        this.#play(LOUD.stroke, 1, STROKE.apart);
    }

    /** Plays the noise of a stroke this loud and at this speed, when what was to be heard before it is over. */
    #play(loud, speed, seconds) {
        const [source, volume] = [this.#context.createBufferSource(), this.#context.createGain()];
        source.buffer = this.#noise;
        source.playbackRate.value = speed;
        volume.gain.value = loud;
        source.connect(volume).connect(this.#context.destination);
        const at = Math.max(this.#free, this.#context.currentTime);
        source.start(at);
        this.#free = at + seconds;
    }
}

/** Lets a sound follow the page: as a view, it hears what is printed and how the drum works. */
export function follow(laboratory, sound, { playing, held, isFast, pace }) {
    let heard = laboratory.printed.count;
    const isReturn = () => laboratory.printed.text.endsWith("\n");
    const frame = () => {
        const at = playing();
        if (isFast()) sound.work(pace() === "own" ? "own" : "fast");
        else sound.work(at === null || at.done ? null : at.phase);
    };
    const show = () => {
        const count = laboratory.printed.count - (held()?.printed == null ? 0 : 1);
        if (count > heard) sound.strokes(count - heard - (isReturn() ? 1 : 0));
        if (count > heard && isReturn()) sound.goBack();
        heard = count;
        frame();
    };
    return { show, frame };
}
